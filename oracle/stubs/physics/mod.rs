//! Stands for src/physics/mod.rs, which is not among the given files: the modules that the given ones name.
pub mod boundary_element;
pub mod circular_filament;
pub mod linear_filament;
pub mod point_source;
