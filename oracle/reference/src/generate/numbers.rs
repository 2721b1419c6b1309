//! Numbers, and the inputs of the arithmetic.
use crate::rng::Rng;

/// Zeros, infinities, NaN, the ends of the ranges, and squares that overflow or vanish.
const SPECIALS: [f64; 30] = [
    0.0,
    -0.0,
    1.0,
    -1.0,
    0.5,
    2.0,
    3.0,
    f64::INFINITY,
    f64::NEG_INFINITY,
    f64::NAN,
    f64::MIN_POSITIVE,
    -f64::MIN_POSITIVE,
    5e-324,
    -5e-324,
    2.225073858507201e-308,
    f64::MAX,
    f64::MIN,
    1e-300,
    1e300,
    1e-160,
    1e154,
    1.3407807929942597e154,
    1e-154,
    1.4916681462400413e-154,
    f64::EPSILON,
    1.0 + f64::EPSILON,
    1.0 - f64::EPSILON / 2.0,
    1e-12,
    1e-7,
    9007199254740993.0,
];

/// The number `k` places further in the order of bit patterns.
pub fn ulps(x: f64, k: i64) -> f64 {
    f64::from_bits((x.to_bits() as i64).wrapping_add(k) as u64)
}

pub fn power_of_two(e: i64) -> f64 {
    if e >= -1022 {
        f64::from_bits(((e + 1023) as u64) << 52)
    } else {
        f64::from_bits(1u64 << (e + 1074))
    }
}

/// Any bit pattern, with the special ones often.
pub fn any_number(r: &mut Rng) -> f64 {
    match r.below(8) {
        0 => f64::from_bits(r.word()),
        1 => r.pick(&SPECIALS),
        2 => {
            let s = r.pick(&SPECIALS);
            ulps(s, r.range(-2, 2))
        }
        3 => r.signed(),
        4 => r.signed() * power_of_two(r.range(-1074, 1023)),
        5 => {
            let s = if r.one_in(2) { -1.0 } else { 1.0 };
            s * power_of_two(r.range(-1074, 1023))
        }
        6 => subnormal(r),
        _ => r.range(-8, 8) as f64,
    }
}

fn subnormal(r: &mut Rng) -> f64 {
    f64::from_bits(r.word() & 0x800fffffffffffff)
}

/// A number whose bits are easily lost: NaN of any sign and payload, -0, an infinity, a subnormal number.
pub fn easily_lost(r: &mut Rng) -> f64 {
    match r.below(6) {
        0..3 => {
            let any = r.word() >> 12 | 1;
            let payload = r.pick(&[1, 1 << 51, (1 << 52) - 1, any]);
            f64::from_bits(r.word() & 1 << 63 | 0x7ff << 52 | payload)
        }
        3 => -0.0,
        4 => either_sign(r, f64::INFINITY),
        _ => subnormal(r),
    }
}

fn either_sign(r: &mut Rng, x: f64) -> f64 {
    if r.one_in(2) { -x } else { x }
}

/// A normal number with exponent from `low` to `high`; its fraction is often all zeros or all ones but a few.
fn full(r: &mut Rng, low: i64, high: i64) -> f64 {
    let fraction = match r.below(4) {
        0 => 0,
        1 => (1u64 << 52) - 1 - r.below(4),
        2 => r.below(8),
        _ => r.word() >> 12,
    };
    let exponent = r.range(low, high);
    let size = f64::from_bits(((exponent + 1023) as u64) << 52 | fraction);
    either_sign(r, size)
}

/// Cancellations, ties, far addends, subnormal and overflowing products.
pub fn mul_add(r: &mut Rng) -> [f64; 3] {
    match r.below(9) {
        0 => [any_number(r), any_number(r), any_number(r)],
        1 => {
            let (a, b) = (full(r, -60, 60), full(r, -60, 60));
            [a, b, -(a * b)]
        }
        2 => {
            let (a, b) = (full(r, -60, 60), full(r, -60, 60));
            [a, b, ulps(-(a * b), r.range(-3, 3))]
        }
        3 => {
            let (a, b) = (full(r, -30, 30), full(r, -30, 30));
            let e = r.range(-120, 120);
            let c = full(r, 0, 0);
            [a, b, c * (a * b).abs() * power_of_two(e)]
        }
        4 => {
            // subnormal products
            let a = full(r, -560, -480);
            let b = full(r, -560, -480);
            let c = match r.below(3) {
                0 => 0.0,
                1 => subnormal(r),
                _ => full(r, -1022, -1000),
            };
            [a, b, c]
        }
        5 => {
            // around overflow
            let a = full(r, 500, 523);
            let b = full(r, 490, 501);
            let c = full(r, 960, 1023);
            [a, b, c]
        }
        6 => {
            let k = r.range(1, 60);
            let a = 1.0 + power_of_two(-k.min(52));
            let b = 1.0 - power_of_two(-k.min(52));
            [a, b, r.pick(&[-1.0, 1.0, 0.0, -0.0])]
        }
        7 => {
            // ties: product has exactly 54 significant bits, or c far below turns a tie
            let a = f64::from_bits(0x3ff0000000000000 | (r.word() >> 38) << 26);
            let b = 1.0 + power_of_two(-27) * (1 + 2 * r.range(0, 8)) as f64;
            let c = r.pick(&[
                0.0,
                -0.0,
                5e-324,
                -5e-324,
                power_of_two(-200),
                -power_of_two(-200),
                power_of_two(-106),
                -power_of_two(-106),
            ]);
            [a, b, c]
        }
        _ => {
            // subnormal times normal
            let b = subnormal(r);
            let c = f64::from_bits(r.word() & 0x801fffffffffffff);
            [full(r, -5, 5), b, c]
        }
    }
}

/// a and c of a * a + c: the squares of `mul_add`'s places, exact squares, and addends of both signs.
pub fn square_add(r: &mut Rng) -> [f64; 2] {
    let [a, b, c] = mul_add(r);
    let a = if r.one_in(2) { a } else { b };
    match r.below(6) {
        0 => [a, ulps(-(a * a), r.range(-2, 2))],
        1 => [a, ulps(a * a, r.range(-2, 2))],
        2 => [a, c.abs()],
        3 => {
            // a * a has its last digit half a place below the sum's last
            let a = (r.word() >> 37) as f64 * power_of_two(r.range(-60, 60));
            let c = a * a * power_of_two(r.range(-30, 60));
            [a, either_sign(r, c)]
        }
        _ => [a, c],
    }
}

/// Exact squares and their neighbours, powers of two, subnormals.
pub fn sqrt(r: &mut Rng) -> f64 {
    match r.below(6) {
        0 => any_number(r),
        1 => {
            let k = (r.word() >> 38) as f64;
            ulps(k * k * power_of_two(2 * r.range(-200, 200)), r.range(-2, 2))
        }
        2 => subnormal(r).abs(),
        3 => ulps(power_of_two(r.range(-1074, 1023)), r.range(-3, 3)),
        4 => f64::from_bits(r.word() >> 1),
        _ => f64::from_bits(r.word() >> (12 + r.below(50))),
    }
}

/// Around 1, around the halving at the root of two, powers of two, subnormals.
pub fn ln(r: &mut Rng) -> f64 {
    match r.below(7) {
        0 => any_number(r),
        1 => ulps(1.0, r.range(-40, 40)),
        2 => ulps(std::f64::consts::SQRT_2, r.range(-4, 4)) * power_of_two(r.range(-30, 30)),
        3 => f64::from_bits(r.word() >> 1),
        4 => ulps(power_of_two(r.range(-1074, 1023)), r.range(-2, 2)),
        5 => r.unit() * 3.0,
        _ => subnormal(r).abs(),
    }
}

/// Around 2^28 and around the number where the stand-in's w is C.
pub fn asinh(r: &mut Rng) -> f64 {
    let size = match r.below(7) {
        0 => any_number(r),
        1 => ulps(268435456.0, r.range(-6, 6)),
        2 => ulps(0.35355339059327373, r.range(-40, 40)),
        3 => r.signed() * 4.0,
        4 => r.signed() * power_of_two(r.range(-40, 40)),
        5 => power_of_two(r.range(-1074, 1023)),
        _ => r.signed() * power_of_two(r.range(-4, 30)),
    };
    either_sign(r, size)
}

/// y and x: quotients around C and around 1, special pairs, all signs.
pub fn atan2(r: &mut Rng) -> [f64; 2] {
    let (mut y, mut x) = match r.below(6) {
        0 => (any_number(r), any_number(r)),
        1 => (r.signed(), r.signed()),
        2 => {
            let x = r.signed() * power_of_two(r.range(-20, 20));
            (ulps(0.4142135623730951 * x, r.range(-3, 3)), x)
        }
        3 => {
            let v = any_number(r);
            (v, ulps(v, r.range(-1, 1)))
        }
        4 => (r.pick(&SPECIALS), r.pick(&SPECIALS)),
        _ => (r.signed(), r.signed() * power_of_two(r.range(-60, 60))),
    };
    if r.one_in(2) {
        std::mem::swap(&mut x, &mut y);
    }
    [either_sign(r, y), either_sign(r, x)]
}

/// Two numbers to be ordered: equal ones, zeros of both signs, NaN, neighbours.
pub fn two(r: &mut Rng) -> [f64; 2] {
    let a = any_number(r);
    match r.below(6) {
        0 => [r.pick(&[0.0, -0.0]), r.pick(&[0.0, -0.0])],
        1 => [a, a],
        2 => [a, ulps(a, r.range(-1, 1))],
        3 => [r.pick(&SPECIALS), r.pick(&SPECIALS)],
        4 => [a, -a],
        _ => [a, any_number(r)],
    }
}

/// x and bounds in order, 0 and 1 often; x often on a bound or next to it.
pub fn clamp(r: &mut Rng) -> [f64; 3] {
    let [a, b] = two(r);
    let (low, high) = match r.below(3) {
        0 if a <= b => (a, b),
        0 if b <= a => (b, a),
        _ => (0.0, 1.0),
    };
    let x = match r.below(6) {
        0 => any_number(r),
        1 => ulps(low, r.range(-1, 1)),
        2 => ulps(high, r.range(-1, 1)),
        3 => r.pick(&SPECIALS),
        4 => r.pick(&[0.0, -0.0]),
        _ => r.signed() * 2.0,
    };
    [x, low, high]
}

/// Halves of a nanohenry and the numbers beside them, the limit 10^15, small fractions.
pub fn display(r: &mut Rng) -> f64 {
    let size = match r.below(9) {
        0 => any_number(r),
        1 => r.range(-2000000, 2000000) as f64 / 1024.0,
        2 => {
            let odd = (2 * r.range(0, 1 << 30) + 1) as f64;
            odd * power_of_two(-r.range(10, 13))
        }
        3 => ulps(1e6, r.range(-4, 20)),
        4 => r.signed() * 1e6,
        5 => r.signed() * 1e-6,
        6 => ulps((r.range(0, 1 << 40) as f64 + 0.5) * 1e-9, r.range(-1, 1)),
        7 => ulps((2 * r.range(0, 1 << 29) + 1) as f64 / 1024.0, r.range(-1, 1)),
        _ => r.range(0, 4000) as f64 * power_of_two(-r.range(10, 12)),
    };
    either_sign(r, size)
}

/// Nodal values, cells, coefficients: whole, of about one size, or any.
pub fn values(r: &mut Rng, n: usize) -> Vec<f64> {
    let sort = r.below(3);
    let mut one = || match sort {
        0 => r.range(-4, 4) as f64,
        1 => r.signed(),
        _ => any_number(r),
    };
    (0..n).map(|_| one()).collect()
}
