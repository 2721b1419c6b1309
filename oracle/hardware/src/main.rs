//! Our fused multiply-add and square root against the processor's, on cases by seed in classes that are hard for them.
//! usage: hardware [SEED] [MILLIONS]: so many million cases of each function.
mod cases;
#[allow(dead_code)] // made for the oracle, which uses all of it
#[path = "../../reference/src/rng.rs"]
mod rng;

use rng::Rng;
use std::arch::x86_64::{_mm_cvtsd_f64, _mm_fmadd_sd, _mm_set_sd};
use std::process::ExitCode;

unsafe extern "C" {
    safe fn screens_mul_add(a: f64, b: f64, c: f64) -> f64;
    safe fn screens_square_add(a: f64, c: f64) -> f64;
    safe fn screens_sqrt(x: f64) -> f64;
}

/// One vfmadd instruction.
#[target_feature(enable = "fma")]
fn fused(a: f64, b: f64, c: f64) -> f64 {
    _mm_cvtsd_f64(_mm_fmadd_sd(_mm_set_sd(a), _mm_set_sd(b), _mm_set_sd(c)))
}

fn bits(x: f64) -> u64 {
    if x.is_nan() { f64::NAN.to_bits() } else { x.to_bits() }
}

/// Runs the classes in turn until `count` cases are done; prints a line a class.
fn run<const N: usize>(
    name: &str,
    classes: &[(&str, fn(&mut Rng) -> [f64; N])],
    seed: u64,
    count: u64,
    both: impl Fn([f64; N]) -> (f64, f64),
) -> u64 {
    let mut all_differ = 0;
    for (index, (class, make)) in classes.iter().enumerate() {
        let mut r = Rng(seed.wrapping_mul(0x2545f4914f6cdd1d) ^ ((index as u64 + 1) << 56));
        let share = count / classes.len() as u64 + u64::from((index as u64) < count % classes.len() as u64);
        let mut differ = 0;
        for _ in 0..share {
            let case = make(&mut r);
            let (ours, due) = both(case);
            if bits(ours) != bits(due) {
                differ += 1;
                if differ <= 3 {
                    let hex = case.map(|x| format!("{:016x}", x.to_bits())).join(" ");
                    println!("{name} {hex}: due {:016x}, got {:016x}", bits(due), bits(ours));
                }
            }
        }
        println!("{name:10} {class:45} {share:11} cases {differ:6} differ");
        all_differ += differ;
    }
    println!("{name:10} {:45} {count:11} cases {all_differ:6} differ", "all");
    all_differ
}

fn main() -> ExitCode {
    let words: Vec<u64> = std::env::args().skip(1).map(|s| s.parse().expect("a number")).collect();
    let seed = words.first().copied().unwrap_or(1);
    let count = words.get(1).copied().unwrap_or(10) * 1_000_000;
    if count == 0 {
        eprintln!("hardware: MILLIONS must be above 0");
        return ExitCode::from(2);
    }
    if !is_x86_feature_detected!("fma") {
        println!("this processor has no fused multiply-add");
        return ExitCode::FAILURE;
    }
    // The feature was found above.
    let fused = |a, b, c| unsafe { fused(a, b, c) };
    let differ = run("mul_add", cases::MUL_ADD, seed, count, |[a, b, c]| {
        (screens_mul_add(a, b, c), fused(a, b, c))
    }) + run("square_add", cases::SQUARE_ADD, seed, count, |[a, c]| {
        (screens_square_add(a, c), fused(a, a, c))
    }) + run("sqrt", cases::SQRT, seed, count, |[x]| (screens_sqrt(x), x.sqrt()));
    println!("seed {seed}: {differ} differ");
    if differ == 0 {
        ExitCode::SUCCESS
    } else {
        ExitCode::FAILURE
    }
}
