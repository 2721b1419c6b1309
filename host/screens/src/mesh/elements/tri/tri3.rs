//! The point of a triangle that is closest to another.
use crate::ffi;
use crate::refusal::filled;

/// The point of the triangle closest to `obs`.
///
/// ```
/// use screens::mesh::elements::tri::tri3::closest_point;
///
/// let (a, b, c) = ([0.0, 0.0, 0.0], [1.0, 0.0, 0.0], [0.0, 1.0, 0.0]);
/// assert_eq!(closest_point([2.0, -1.0, 5.0], a, b, c), b);
/// ```
pub fn closest_point(obs: [f64; 3], n0: [f64; 3], n1: [f64; 3], n2: [f64; 3]) -> [f64; 3] {
    filled(|out| ffi::closest_point(obs, [n0, n1, n2], out))
}
