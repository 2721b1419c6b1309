//! The steps on the way to a coupling, which are private in the original: they say why a pair is near or far.
use crate::ffi;
use crate::refusal::{filled, rows};

/// A triangle by its corners.
type Triangle = [[f64; 3]; 3];

/// Whether each corner of the source is within 1e-12 m of some corner of the target. One way only, as in the original.
pub fn triangles_identical(
    src0: [f64; 3],
    src1: [f64; 3],
    src2: [f64; 3],
    tgt0: [f64; 3],
    tgt1: [f64; 3],
    tgt2: [f64; 3],
) -> bool {
    ffi::triangles_identical([src0, src1, src2], [tgt0, tgt1, tgt2])
}

/// Whether the far rule is used for a pair.
///
/// ```
/// use screens::physics::boundary_element::is_far;
///
/// let raised = |z| [[0.0, 0.0, z], [3.0, 0.0, z], [0.0, 4.0, z]];
/// assert!(!is_far(raised(0.0), raised(5.0)));
/// assert!(is_far(raised(0.0), raised(5.000000000000001)));
/// ```
pub fn is_far(source: Triangle, target: Triangle) -> bool {
    ffi::is_far(source, target)
}

/// The squared distance (m²) of the boxes around two triangles.
pub fn triangle_aabb_distance_squared(source: Triangle, target: Triangle) -> f64 {
    ffi::aabb_distance_squared(source, target)
}

/// The squared distance (m²) of two triangles.
pub fn triangle_distance_squared(source: Triangle, target: Triangle) -> f64 {
    ffi::distance_squared(source, target)
}

/// The squared length (m²) of a triangle's longest edge.
pub fn triangle_max_edge_squared(nodes: Triangle) -> f64 {
    ffi::max_edge_squared(nodes)
}

/// The two halves of a triangle, cut at its longest edge, the first of equal ones.
pub fn longest_edge_bisection(nodes: Triangle) -> [Triangle; 2] {
    let out = filled(|out| ffi::longest_edge_bisection(nodes, out));
    let half = |from: usize| rows(std::array::from_fn(|i| out[from + i]));
    [half(0), half(9)]
}
