//! Triangles by their three corners.
pub mod mapping;
pub mod quadrature;
pub mod tri3;
