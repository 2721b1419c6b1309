//! Physics of panels.
pub mod boundary_element;
