//! Cases and answers as words of 64 bits (oracle/FORMAT.md): a number is its bits, every NaN of a result is one number, a slice
//! is its length and then its elements. The oracle makes them from the original; `replay` answers them from ours.
pub mod file;
mod mesh;
mod names;
mod store;
mod words;

pub use mesh::Mesh;
pub use names::{NAMES, kind, name};
pub use store::{Name, Store};
pub use words::{In, Out};

/// A triangle by its corners.
pub type Triangle = [[f64; 3]; 3];

/// One number for every NaN.
#[inline]
pub fn canonical(x: f64) -> u64 {
    if x.is_nan() { 0x7ff8_0000_0000_0000 } else { x.to_bits() }
}
