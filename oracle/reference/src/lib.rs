//! The answers that a port is held to: the original Rust, and over it what document 01 adds
//! (refusal numbers, limits, the move, the panel file, the display value, the row), the copies below a matrix's diagonal, and the
//! named shapes.
pub mod calls;
pub mod eval;
pub mod generate;
pub mod rng;
pub mod selfcheck;
pub mod shapes;
pub mod sorts;
pub use ::cases::{canonical, file as cases};
pub use cfsem::physics::boundary_element::flux_density_triangle as inner;

/// For C: answers a case of the given kind (FORMAT.md). Writes at most `room` result words and returns how many there are.
///
/// # Safety
/// `input` points to `inputs` words and `results` to room for `room` words.
#[unsafe(no_mangle)]
pub unsafe extern "C" fn oracle_eval(
    kind: u32,
    input: *const u64,
    inputs: usize,
    results: *mut u64,
    room: usize,
) -> usize {
    let words = eval::eval(kind, unsafe { std::slice::from_raw_parts(input, inputs) });
    let count = words.len().min(room);
    unsafe { std::ptr::copy_nonoverlapping(words.as_ptr(), results, count) };
    words.len()
}
