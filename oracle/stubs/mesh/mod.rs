//! Stands for src/mesh/mod.rs, which is not among the given files: the modules that the given ones name.
pub mod elements;
pub mod triangle3d;
pub use triangle3d::TriangleMeshView;
/// Second copy of triangle3d.rs with an accessor module appended by build.sh.
pub mod probe_triangle3d;
