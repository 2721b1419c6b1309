//! Panels one by one.
pub mod tri;
