//! The kinds of cases.

/// The names of the kinds: that of kind k stands at k - 1.
pub const NAMES: [&str; 61] = [
    "fma",
    "sqrt",
    "ln",
    "asinh",
    "atan2",
    "dot3",
    "cross3",
    "norm3", // 8
    "closest_point",
    "area",
    "quality",
    "record",
    "potential",
    "gradient",
    "contact",
    "bisect", // 16
    "coupling",
    "block",
    "entry",
    "mesh_test",
    "quadrature",
    "densities", // 22
    "basis_densities",
    "panel_density",
    "matrix",
    "energy2",
    "energy1",
    "flux",
    "interaction", // 29
    "move",
    "row_matrix",
    "row_map",
    "read_file",
    "density_program",
    "display",
    "steps", // 36
    "point_distance",
    "segment_distance",
    "coupling_regular",
    "block_energy",
    "identical", // 41
    "map_point",
    "normal",
    "normalize3",
    "add_scaled3",
    "sub3",
    "add3",
    "scale3", // 48
    "min",
    "max",
    "clamp",
    "abs",
    "square_add", // 53
    "box_distance",
    "panel_distance",
    "longest_edge",
    "is_far",
    "write_file", // 58
    "save_shape",
    "drop_shape",
    "return_shape", // 61
];

/// The name of a kind.
pub fn name(kind: u32) -> &'static str {
    NAMES[kind as usize - 1]
}

/// The kind of a name.
pub fn kind(name: &str) -> Option<u32> {
    NAMES.iter().position(|n| *n == name).map(|k| k as u32 + 1)
}
