//! Document 01, "Arithmetic under the physics": ln, asinh, atan2.
//! Every operation is one rounded f64 operation in the order written; nothing fused.

pub const LN2: f64 = 0.6931471805599453;
pub const SQRT2: f64 = 1.4142135623730951;
pub const C: f64 = 0.4142135623730951;
pub const PI: f64 = 3.141592653589793;

/// P(z): p = 1/23; for k = 21, 19 down to 1, p = 1/k + z * p.
#[inline]
pub fn p(z: f64) -> f64 {
    let mut p = 1.0 / 23.0;
    let mut k = 21i32;
    while k >= 1 {
        p = 1.0 / (k as f64) + z * p;
        k -= 2;
    }
    p
}

/// Q(z): p = 1/45; for k = 43, 41 down to 1, p = 1/k - z * p.
#[inline]
pub fn q(z: f64) -> f64 {
    let mut p = 1.0 / 45.0;
    let mut k = 43i32;
    while k >= 1 {
        p = 1.0 / (k as f64) - z * p;
        k -= 2;
    }
    p
}

#[inline]
pub fn ln(x: f64) -> f64 {
    if x.is_nan() || x < 0.0 {
        return f64::NAN;
    }
    if x == 0.0 {
        return f64::NEG_INFINITY;
    }
    if x == f64::INFINITY {
        return x;
    }
    // x = m * 2^e exactly, 1 <= m < 2.
    let bits = x.to_bits();
    let field = (bits >> 52) as i64; // sign is clear
    let frac = bits & ((1u64 << 52) - 1);
    let (mut e, mfrac) = if field == 0 {
        let lz = frac.leading_zeros() as i64; // frac != 0
        let shift = lz - 11; // brings the top bit to position 52
        (-1022 - shift, (frac << shift) & ((1u64 << 52) - 1))
    } else {
        (field - 1023, frac)
    };
    let mut m = f64::from_bits(0x3ff0_0000_0000_0000 | mfrac);
    if m > SQRT2 {
        m *= 0.5;
        e += 1;
    }
    let t = (m - 1.0) / (m + 1.0);
    (e as f64) * LN2 + (t + t) * p(t * t)
}

#[inline]
pub fn asinh(x: f64) -> f64 {
    if x == 0.0 || x.is_nan() || x.is_infinite() {
        return x;
    }
    let a = x.abs();
    let r = if a > 268435456.0 {
        ln(a) + LN2
    } else {
        let w = a + (a * a) / (1.0 + (a * a + 1.0).sqrt());
        if w <= C {
            let t = w / (2.0 + w);
            (t + t) * p(t * t)
        } else {
            ln(1.0 + w)
        }
    };
    if x.is_sign_negative() { -r } else { r }
}

#[inline]
pub fn atan2(y: f64, x: f64) -> f64 {
    if y.is_nan() || x.is_nan() {
        return f64::NAN;
    }
    let (ay, ax) = (y.abs(), x.abs());
    let q_ = if ay == 0.0 && ax == 0.0 {
        0.0
    } else if ay == f64::INFINITY && ax == f64::INFINITY {
        1.0
    } else if ay > ax {
        ax / ay
    } else {
        ay / ax
    };
    let (u, b) = if q_ > C {
        ((q_ - 1.0) / (q_ + 1.0), PI / 4.0)
    } else {
        (q_, 0.0)
    };
    let mut r = b + u * q(u * u);
    if ay > ax {
        r = PI / 2.0 - r;
    }
    if x.is_sign_negative() {
        r = PI - r;
    }
    if y.is_sign_negative() { -r } else { r }
}
