//! Answers cases (oracle/FORMAT.md) through the crate `screens`. Buffers are lent with a pattern in them and guard words around
//! them; whatever a call writes that it must not write becomes a word of its answer, which then differs from the one due. So does
//! a panel file that does not go there and back.
mod calls;
mod files;
mod lent;
mod shapes;

pub use calls::{CALLS, Call};
use cases::{In, Out};

/// The call of a kind's name, if the crate has it.
pub fn call(name: &str) -> Option<Call> {
    CALLS.iter().find(|(kind, _)| *kind == name).map(|(_, call)| *call)
}

/// The result words of a case.
pub fn answer(call: Call, input: &[u64]) -> Vec<u64> {
    call(&mut In::new(input), Out::default()).0
}
