//! Display values: ours alone, for two states of it.
use crate::rng::Rng;
use crate::screens::timed;
use std::hint::black_box;

unsafe extern "C" {
    safe fn screens_display(x: f64, value: &mut i64) -> u32;
}

const NUMBERS: usize = 1_000_000;
const PASSES: usize = 5;

/// A line for each sort of a million numbers: its name, and nanoseconds of thread time a call, the least of some passes.
pub fn times() {
    let mut r = Rng(7);
    // from a tenth of a nanohenry to twice the largest size, evenly over the logarithms
    let mixed = (0..NUMBERS)
        .map(|_| r.signed() * 2f64.powi(r.range(-33, 21) as i32))
        .collect();
    let halves = (0..NUMBERS)
        .map(|_| (2 * r.range(-(1 << 28), 1 << 28) + 1) as f64 / 1024.0)
        .collect();
    let sorts: [(&str, Vec<f64>); 2] = [("mixed", mixed), ("halves", halves)];
    for (name, numbers) in sorts {
        let pass = || {
            for &x in &numbers {
                let mut value = 0;
                black_box(screens_display(x, &mut value));
                black_box(value);
            }
        };
        let times = (0..PASSES).map(|_| timed(pass));
        println!(
            "{name} {:.4}",
            times.fold(f64::INFINITY, f64::min) * 1e9 / NUMBERS as f64
        );
    }
}
