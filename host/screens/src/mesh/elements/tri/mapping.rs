//! Points, area, normal and quality of a triangle.
use crate::ffi;
use crate::refusal::filled;

/// The point at (u, v) of the reference triangle, in metres.
pub fn map_point(n0: [f64; 3], n1: [f64; 3], n2: [f64; 3], uv: [f64; 2]) -> [f64; 3] {
    filled(|out| ffi::map_point([n0, n1, n2], uv[0], uv[1], out))
}

/// The area, in square metres.
///
/// ```
/// use screens::mesh::elements::tri::mapping::area;
///
/// assert_eq!(area([0.0, 0.0, 0.0], [3.0, 0.0, 0.0], [0.0, 4.0, 0.0]), 6.0);
/// ```
pub fn area(n0: [f64; 3], n1: [f64; 3], n2: [f64; 3]) -> f64 {
    ffi::area([n0, n1, n2])
}

/// The unit normal.
pub fn normal(n0: [f64; 3], n1: [f64; 3], n2: [f64; 3]) -> [f64; 3] {
    filled(|out| ffi::normal([n0, n1, n2], out))
}

/// 1 for equal edges, towards 0 for a sliver. Below 1e-3 a panel counts as poor.
pub fn quality(n0: [f64; 3], n1: [f64; 3], n2: [f64; 3]) -> f64 {
    ffi::quality([n0, n1, n2])
}
