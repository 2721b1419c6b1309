//! Meshes of triangle panels: a tested view of six columns, an owned mesh, its named shapes, and the panel file.
mod owned;
mod panel_file;
mod shapes;
mod view;

pub mod elements;

pub use owned::TriangleMesh;
pub use panel_file::{panel_file_counts, panel_file_length, read_panel_file, write_panel_file};
pub use shapes::{Shapes, shape_name};
pub use view::TriangleMeshView;

/// The most nodes that a mesh may have.
pub const MAX_NODES: usize = 4096;

/// The most panels that a mesh may have.
pub const MAX_PANELS: usize = 8192;
