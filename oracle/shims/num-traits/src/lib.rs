//! What the original uses of the `num_traits` crate.
//! f64's `ln`, `asinh` and `atan2` are document 01's stand-ins; everything else is the standard library's.
use core::ops::{Add, Div, Mul, Neg, Rem, Sub};

pub mod standin;

pub trait Float:
    Copy
    + PartialOrd
    + Neg<Output = Self>
    + Add<Output = Self>
    + Sub<Output = Self>
    + Mul<Output = Self>
    + Div<Output = Self>
    + Rem<Output = Self>
{
    fn one() -> Self;
    fn zero() -> Self;
    fn infinity() -> Self;
    fn epsilon() -> Self;
    fn sqrt(self) -> Self;
    fn abs(self) -> Self;
    fn mul_add(self, a: Self, b: Self) -> Self;
    fn min(self, other: Self) -> Self;
    fn max(self, other: Self) -> Self;
    fn ln(self) -> Self;
    fn asinh(self) -> Self;
    fn atan2(self, other: Self) -> Self;
}

pub trait FromPrimitive: Sized {
    fn from_f64(value: f64) -> Option<Self>;
}

macro_rules! float {
    ($t:ident, $ln:path, $asinh:path, $atan2:path) => {
        impl Float for $t {
            #[inline]
            fn one() -> Self {
                1.0
            }
            #[inline]
            fn zero() -> Self {
                0.0
            }
            #[inline]
            fn infinity() -> Self {
                $t::INFINITY
            }
            #[inline]
            fn epsilon() -> Self {
                $t::EPSILON
            }
            #[inline]
            fn sqrt(self) -> Self {
                <$t>::sqrt(self)
            }
            #[inline]
            fn abs(self) -> Self {
                <$t>::abs(self)
            }
            #[inline]
            fn mul_add(self, a: Self, b: Self) -> Self {
                <$t>::mul_add(self, a, b)
            }
            #[inline]
            fn min(self, other: Self) -> Self {
                <$t>::min(self, other)
            }
            #[inline]
            fn max(self, other: Self) -> Self {
                <$t>::max(self, other)
            }
            #[inline]
            fn ln(self) -> Self {
                $ln(self)
            }
            #[inline]
            fn asinh(self) -> Self {
                $asinh(self)
            }
            #[inline]
            fn atan2(self, other: Self) -> Self {
                $atan2(self, other)
            }
        }
        impl FromPrimitive for $t {
            #[inline]
            fn from_f64(value: f64) -> Option<Self> {
                Some(value as $t)
            }
        }
    };
}
float!(f64, standin::ln, standin::asinh, standin::atan2);
float!(f32, f32::ln, f32::asinh, f32::atan2);
