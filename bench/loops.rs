//! The loops that are timed. Each implementation expands them over its own functions, so that its compiler sees loop and
//! function together; calls into a library stay calls.

/// Six numbers for one call; a function takes as many as it needs.
pub type Input = [f64; 6];

/// What is timed, in the order of `implementation!`.
pub const FUNCTIONS: [&str; 10] = [
    "loop alone",
    "mul_add",
    "square_add",
    "sqrt",
    "ln",
    "asinh",
    "atan2",
    "dot3",
    "cross3",
    "norm3",
];

/// Passes over the inputs, each call independent of the others or its numbers made to wait for the last result.
pub type Run = unsafe extern "C" fn(function: usize, chained: bool, inputs: *const Input, count: usize, passes: usize);

/// Defines a `Run`: for each function its call on an input `x`, a number or an array of three.
#[macro_export]
macro_rules! implementation {
    ($(#[$attribute:meta])* $name:ident: $($place:literal => |$x:ident| $call:expr),* $(,)?) => {
        $(#[$attribute])*
        pub unsafe extern "C" fn $name(function: usize, chained: bool, inputs: *const Input, count: usize, passes: usize) {
            use std::hint::black_box;
            let inputs = unsafe { std::slice::from_raw_parts(inputs, count) };
            // Zero, but the compiler does not know: x ^ (result & zero) is x and waits for the result.
            let zero = black_box(0u64);
            match (function, chained) {
                $(
                    ($place, false) => {
                        for _ in 0..passes {
                            for $x in inputs {
                                black_box($call);
                            }
                        }
                    }
                    ($place, true) => {
                        let mut last = 0.0f64;
                        for _ in 0..passes {
                            for input in inputs {
                                let wait = last.to_bits() & zero;
                                let next = input.map(|number| f64::from_bits(number.to_bits() ^ wait));
                                let $x = &next;
                                last = $crate::whole($call);
                            }
                        }
                        black_box(last);
                    }
                )*
                _ => panic!("no such function"),
            }
        }
    };
}

/// A number made of all of a result, so that no part of the call can be left out.
pub trait Whole {
    fn whole(self) -> f64;
}

impl Whole for f64 {
    #[inline(always)]
    fn whole(self) -> f64 {
        self
    }
}

impl Whole for [f64; 3] {
    #[inline(always)]
    fn whole(self) -> f64 {
        f64::from_bits(self[0].to_bits() ^ self[1].to_bits() ^ self[2].to_bits())
    }
}

#[inline(always)]
pub fn whole(result: impl Whole) -> f64 {
    result.whole()
}

/// A mesh in columns, for `rust_matrix`.
#[repr(C)]
pub struct Columns {
    pub nodes: [*const f64; 3],
    pub node_count: usize,
    pub panels: [*const usize; 3],
    pub panel_count: usize,
}

/// The original's fresh matrix.
#[allow(dead_code)]
pub type Matrix = unsafe extern "C" fn(rule: u32, columns: *const Columns, out: *mut f64) -> bool;
