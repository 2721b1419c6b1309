//! The classes of cases.
use crate::rng::Rng;

type Class<const N: usize> = (&'static str, fn(&mut Rng) -> [f64; N]);

pub const MUL_ADD: &[Class<3>] = &[
    ("any bit patterns", |r| [any(r), any(r), any(r)]),
    ("every exponent, addend within 2^120", |r| {
        let (a, b) = (any_finite(r), any_finite(r));
        let place = exponent(a) + exponent(b) + r.range(-120, 120);
        [a, b, normal(r, place)]
    }),
    ("numbers between 2^-20 and 2^20", |r| {
        [sized(r, 20), sized(r, 20), sized(r, 20)]
    }),
    ("subnormal factors, addends or results", subnormal_sum),
    ("exact cancellation", |r| {
        let (a, b) = (half_width(r), half_width(r));
        [a, b, -(a * b)]
    }),
    ("near cancellation", |r| {
        let (a, b) = (sized(r, 200), sized(r, 200));
        [a, b, near(-(a * b), r, 4)]
    }),
    ("ties and their neighbours", |r| {
        let (a, b) = tie_factors(r);
        let (a, b, c) = (a as f64, b as f64, tie_addend(r));
        let (up, across) = (power(r.range(-300, 300)), power(r.range(-100, 100)));
        [
            signed(r, a * up * across),
            signed(r, b * up / across),
            signed(r, c * up * up),
        ]
    }),
    ("ties of subnormal results", |r| {
        let (a, b) = tie_factors(r);
        // The product's digit of weight 2^52 or so falls at half of the least subnormal number.
        let down = -1075 - r.range(50, 54);
        let half = down / 2;
        let c = if r.one_in(2) { 0.0 } else { subnormal(r) };
        [
            signed(r, a as f64 * power(half)),
            signed(r, b as f64 * power(down - half)),
            c,
        ]
    }),
    ("addend far above", |r| {
        let (a, b) = (sized(r, 200), sized(r, 200));
        let place = exponent(a) + exponent(b) + r.range(50, 400);
        [a, b, edge(r, place)]
    }),
    ("addend far below", |r| {
        let (a, b) = if r.one_in(2) {
            (half_width(r), half_width(r))
        } else {
            (sized(r, 200), sized(r, 200))
        };
        let place = exponent(a) + exponent(b) - r.range(50, 400);
        [a, b, edge(r, place)]
    }),
    ("around overflow", |r| {
        let (place, more) = (r.range(0, 1020), r.range(-2, 1));
        let (a, b) = (edge(r, place), edge(r, 1023 - place + more));
        let place = r.range(960, 1023);
        [a, b, edge(r, place)]
    }),
];

pub const SQUARE_ADD: &[Class<2>] = &[
    ("any bit patterns", |r| [any(r), any(r)]),
    ("every exponent, addend within 2^120", |r| {
        let a = any_finite(r);
        let place = 2 * exponent(a) + r.range(-120, 120);
        [a, normal(r, place)]
    }),
    ("numbers between 2^-20 and 2^20", |r| [sized(r, 20), sized(r, 20)]),
    ("the same, addend not negative", |r| [sized(r, 20), sized(r, 40).abs()]),
    ("subnormal factors, addends or results", |r| {
        let [a, _, c] = subnormal_sum(r);
        let place = r.range(-540, -505);
        [if r.one_in(2) { a } else { normal(r, place) }, c]
    }),
    ("exact cancellation", |r| {
        let a = half_width(r);
        [a, -(a * a)]
    }),
    ("near cancellation", |r| {
        let a = sized(r, 400);
        [a, near(-(a * a), r, 4)]
    }),
    ("ties and their neighbours", |r| {
        let (a, c, up) = (tie_root(r) as f64, tie_addend(r), power(r.range(-400, 300)));
        [signed(r, a * up), signed(r, c * up * up)]
    }),
    ("addend far above", |r| {
        let a = sized(r, 300);
        let place = 2 * exponent(a) + r.range(50, 300);
        [a, edge(r, place)]
    }),
    ("addend far below", |r| {
        let a = if r.one_in(2) { half_width(r) } else { sized(r, 300) };
        let place = 2 * exponent(a) - r.range(50, 400);
        [a, edge(r, place)]
    }),
    ("around overflow", |r| {
        let (half, place) = (r.range(511, 512), r.range(960, 1023));
        [edge(r, half), edge(r, place)]
    }),
];

pub const SQRT: &[Class<1>] = &[
    ("any bit patterns", |r| [any(r)]),
    ("any that are not negative", |r| [any(r).abs()]),
    ("every exponent", |r| {
        let place = r.range(-1022, 1023);
        [normal(r, place).abs()]
    }),
    ("subnormal", |r| [subnormal(r).abs()]),
    ("powers of two and their neighbours", |r| {
        [near(power(r.range(-1074, 1023)), r, 8).abs()]
    }),
    ("exact squares and their neighbours", |r| {
        let root = half_width(r);
        [near(root * root, r, 2).abs()]
    }),
    ("roots next to a tie", |r| [root_near_tie(r)]),
];

fn any(r: &mut Rng) -> f64 {
    f64::from_bits(r.word())
}

fn any_finite(r: &mut Rng) -> f64 {
    loop {
        let x = any(r);
        if x.is_finite() {
            return x;
        }
    }
}

fn signed(r: &mut Rng, x: f64) -> f64 {
    if r.one_in(2) { -x } else { x }
}

/// 2^e, down to the least subnormal number; 0 below that and infinity above the range.
fn power(e: i64) -> f64 {
    match e {
        ..-1074 => 0.0,
        -1074..-1022 => f64::from_bits(1 << (e + 1074)),
        -1022..1024 => f64::from_bits(((e + 1023) as u64) << 52),
        1024.. => f64::INFINITY,
    }
}

/// The exponent of the leading digit; -1023 for every subnormal number and zero.
fn exponent(x: f64) -> i64 {
    (x.to_bits() >> 52 & 0x7ff) as i64 - 1023
}

fn with_fraction(r: &mut Rng, e: i64, fraction: u64) -> f64 {
    let e = e.clamp(-1022, 1023);
    signed(r, f64::from_bits(((e + 1023) as u64) << 52 | fraction))
}

fn normal(r: &mut Rng, e: i64) -> f64 {
    let fraction = r.word() >> 12;
    with_fraction(r, e, fraction)
}

/// Normal, with a fraction that is often all zeros or all ones but a few.
fn edge(r: &mut Rng, e: i64) -> f64 {
    let fraction = match r.below(4) {
        0 => r.below(4),
        1 => (1 << 52) - 1 - r.below(4),
        _ => r.word() >> 12,
    };
    with_fraction(r, e, fraction)
}

/// Normal, with exponent from -e to e.
fn sized(r: &mut Rng, e: i64) -> f64 {
    let place = r.range(-e, e);
    normal(r, place)
}

fn subnormal(r: &mut Rng) -> f64 {
    let kept = 12 + r.below(52);
    let size = f64::from_bits(r.word() >> kept);
    signed(r, size)
}

/// 26 binary digits, so that the product of two is exact.
fn half_width(r: &mut Rng) -> f64 {
    let size = (r.word() >> 38) as f64 * power(r.range(-400, 400));
    signed(r, size)
}

/// At most k places away in the order of bit patterns.
fn near(x: f64, r: &mut Rng, k: i64) -> f64 {
    f64::from_bits(x.to_bits().wrapping_add_signed(r.range(-k, k)))
}

/// Subnormal factors with an addend of the product's size, or factors whose product is near 2^-1074.
fn subnormal_sum(r: &mut Rng) -> [f64; 3] {
    let c = match r.below(3) {
        0 => 0.0,
        1 => subnormal(r),
        _ => {
            let place = r.range(-1022, -990);
            normal(r, place)
        }
    };
    if r.one_in(3) {
        let place = r.range(-60, 60);
        return [subnormal(r), normal(r, place), c];
    }
    let place = r.range(-1022, 60);
    let (a, down) = (edge(r, place), r.range(-1080, -1000));
    [a, edge(r, down - place), c]
}

/// A whole number below 2^digits in size, of any length.
fn small(r: &mut Rng, digits: u32) -> i64 {
    let length = r.below(digits as u64 + 1) as u32;
    let size = r.below(1 << length) as i64;
    if r.one_in(2) { -size } else { size }
}

/// Whether the leading 53 digits of a product end before the digit of weight 2^(t-1), whose half-way mark that is.
fn rounds_at(product: u128, t: u32) -> bool {
    128 - product.leading_zeros() == 53 + t
}

/// Two whole numbers below 2^53 whose product is a tie of its 53 leading digits or within a thousandth of a place of one:
/// modulo 2^t it is 2^(t-1), or differs from that by less than 2^(t-10).
fn tie_factors(r: &mut Rng) -> (u64, u64) {
    loop {
        let t = r.range(51, 53) as u32;
        let a = r.word() >> 11 | 1;
        // Newton's iteration for 1/a modulo 2^64: the three digits that are right at first are doubled by each turn.
        let mut inverse = a;
        for _ in 0..5 {
            inverse = inverse.wrapping_mul(2u64.wrapping_sub(a.wrapping_mul(inverse)));
        }
        let rest = (1u64 << (t - 1)).wrapping_add_signed(small(r, t - 10));
        let b = high_and_low(r, inverse.wrapping_mul(rest), t);
        if rounds_at(a as u128 * b as u128, t) {
            return (a, b);
        }
    }
}

/// A whole number below 2^53 whose square is within a thousandth of a place of a tie, or that has 27 digits and a tie.
fn tie_root(r: &mut Rng) -> u64 {
    if r.one_in(8) {
        return (r.word() >> 38 | 1 << 25) << 26 | 1 << 25;
    }
    loop {
        let t = r.range(50, 53) as u32;
        let root = root_modulo((1 << (t - 1)) + 8 * small(r, t - 13) + 1, t);
        let a = high_and_low(r, root, t - 1);
        if rounds_at(a as u128 * a as u128, t) {
            return a;
        }
    }
}

/// The lower digits are those of `low`, the others up to 53 are any.
fn high_and_low(r: &mut Rng, low: u64, digits: u32) -> u64 {
    let mask = (1 << digits) - 1;
    (r.word() >> 11) & !mask | low & mask
}

/// y with y^2 = square modulo 2^n, for a square that is 1 modulo 8: digit after digit.
fn root_modulo(square: i64, n: u32) -> u64 {
    let mut y = 1u64;
    for k in 3..n {
        if y.wrapping_mul(y).wrapping_sub(square as u64) >> k & 1 == 1 {
            y += 1 << (k - 1);
        }
    }
    y
}

/// Zero, whole numbers of 2^53, or so little that it only turns a tie.
fn tie_addend(r: &mut Rng) -> f64 {
    match r.below(4) {
        0 => 0.0,
        1 => power(-r.range(0, 200)),
        2 => (r.word() >> r.range(11, 63)) as f64 * power(53),
        _ => (r.word() >> 11) as f64,
    }
}

/// A number whose root is next to a tie: y^2 = rest modulo 2^n makes (y^2 - rest) / 2^n a whole number x, and the root of
/// x 2^n is about y - rest / 2y, where y is odd and has 54 digits: within a thousandth of a place of half-way.
fn root_near_tie(r: &mut Rng) -> f64 {
    loop {
        let n = r.range(54, 55);
        let rest = 8 * small(r, 42) + 1;
        let half = 1u64 << (n - 1); // y, -y and both plus half are the roots modulo 2^n
        let root = root_modulo(rest, n as u32) & (half - 1);
        let root = if r.one_in(2) { half - root } else { root };
        let y = if n == 54 { root + half } else { root };
        let x = ((y as i128 * y as i128 - rest as i128) >> n) as u64;
        if (1 << 53..1 << 54).contains(&y) && x < 1 << 53 {
            return x as f64 * power(n % 2 + 2 * r.range(-500, 480));
        }
    }
}
