//! The arithmetic that every answer is made of: IEEE 754 operations rounded once, document 01's three elementary functions,
//! and vectors of three numbers.
//!
//! These are not the platform's functions: the proved ones of the static library, the same on every machine.
//!
//! ```
//! use screens::math;
//!
//! // one rounding: multiplying first would give 0
//! let step = 2f64.powi(-30);
//! assert_eq!(math::mul_add(1.0 + step, 1.0 - step, -1.0), -2f64.powi(-60));
//! assert_eq!(math::cross3([1.0, 0.0, 0.0], [0.0, 1.0, 0.0]), [0.0, 0.0, 1.0]);
//! ```
use crate::ffi;
use crate::refusal::filled;

/// a × b + c, rounded once (IEEE 754 fusedMultiplyAdd).
pub fn mul_add(a: f64, b: f64, c: f64) -> f64 {
    ffi::mul_add(a, b, c)
}

/// a × a + c, rounded once.
pub fn square_add(a: f64, c: f64) -> f64 {
    ffi::square_add(a, c)
}

/// The root, rounded once (IEEE 754 squareRoot).
pub fn sqrt(x: f64) -> f64 {
    ffi::sqrt(x)
}

/// The smaller number: the other one if one is NaN, the first of two equal ones.
pub fn min(a: f64, b: f64) -> f64 {
    ffi::min(a, b)
}

/// The larger number: the other one if one is NaN, the first of two equal ones.
pub fn max(a: f64, b: f64) -> f64 {
    ffi::max(a, b)
}

/// `low` if x is below it, `high` if x is above it, otherwise x; NaN stays NaN. Unlike the standard library's it stops at no
/// bounds: of `low` above `high` the first that applies is given.
pub fn clamp(x: f64, low: f64, high: f64) -> f64 {
    ffi::clamp(x, low, high)
}

/// The size of a number.
pub fn abs(x: f64) -> f64 {
    ffi::abs(x)
}

/// The natural logarithm, by document 01's series.
pub fn ln(x: f64) -> f64 {
    ffi::ln(x)
}

/// The inverse hyperbolic sine, by document 01's series.
pub fn asinh(x: f64) -> f64 {
    ffi::asinh(x)
}

/// The angle of the point (x, y), by document 01's series.
pub fn atan2(y: f64, x: f64) -> f64 {
    ffi::atan2(y, x)
}

/// The scalar product, fused.
pub fn dot3(a: [f64; 3], b: [f64; 3]) -> f64 {
    ffi::dot3(a, b)
}

/// The length of a vector.
pub fn norm3(v: [f64; 3]) -> f64 {
    ffi::norm3(v)
}

/// The vector over its length.
pub fn normalize3(v: [f64; 3]) -> [f64; 3] {
    filled(|out| ffi::normalize3(v, out))
}

/// The cross product, fused.
pub fn cross3(a: [f64; 3], b: [f64; 3]) -> [f64; 3] {
    filled(|out| ffi::cross3(a, b, out))
}

/// a − b.
pub fn sub3(a: [f64; 3], b: [f64; 3]) -> [f64; 3] {
    filled(|out| ffi::sub3(a, b, out))
}

/// a + b.
pub fn add3(a: [f64; 3], b: [f64; 3]) -> [f64; 3] {
    filled(|out| ffi::add3(a, b, out))
}

/// The vector times a number.
pub fn scale3(value: [f64; 3], scale: f64) -> [f64; 3] {
    filled(|out| ffi::scale3(value, scale, out))
}

/// a + scale × b, fused.
pub fn add_scaled3(a: [f64; 3], b: [f64; 3], scale: f64) -> [f64; 3] {
    filled(|out| ffi::add_scaled3(a, b, scale, out))
}
