//! Times our functions, the processor's own, and the original Rust built for any x86-64 and for this processor, side by side
//! in one run. usage: driver PORTABLE NATIVE [matrix | moves], the two builds of `kernels`.
mod display;
#[path = "../../loops.rs"]
mod loops;
#[allow(dead_code)]
#[path = "../../../oracle/reference/src/rng.rs"]
mod rng;
mod screens;

use loops::{FUNCTIONS, Input, Matrix, Run, whole};
use rng::Rng;
use std::arch::x86_64::{_mm_cvtsd_f64, _mm_fmadd_sd, _mm_set_sd};
use std::ffi::{CStr, CString, c_char, c_int, c_long, c_void};

unsafe extern "C" {
    safe fn screens_mul_add(a: f64, b: f64, c: f64) -> f64;
    safe fn screens_square_add(a: f64, c: f64) -> f64;
    safe fn screens_sqrt(x: f64) -> f64;
    safe fn screens_ln(x: f64) -> f64;
    safe fn screens_asinh(x: f64) -> f64;
    safe fn screens_atan2(y: f64, x: f64) -> f64;
    safe fn screens_dot3(a: &[f64; 3], b: &[f64; 3]) -> f64;
    safe fn screens_norm3(a: &[f64; 3]) -> f64;
    safe fn screens_cross3(a: &[f64; 3], b: &[f64; 3], out: &mut [f64; 3]);

    fn clock_gettime(clock: c_int, time: *mut [c_long; 2]) -> c_int;
    fn dlopen(path: *const c_char, flags: c_int) -> *mut c_void;
    fn dlsym(library: *mut c_void, name: *const c_char) -> *mut c_void;
}

/// The two vectors of an input.
#[inline(always)]
fn vectors(x: &Input) -> (&[f64; 3], &[f64; 3]) {
    (
        x.first_chunk().expect("six numbers"),
        x.last_chunk().expect("six numbers"),
    )
}

#[inline(always)]
fn our_cross3(x: &Input) -> [f64; 3] {
    let mut out = [0.0; 3];
    let (a, b) = vectors(x);
    screens_cross3(a, b, &mut out);
    out
}

implementation! {
    ours:
    0 => |x| x[0],
    1 => |x| screens_mul_add(x[0], x[1], x[2]),
    2 => |x| screens_square_add(x[0], x[1]),
    3 => |x| screens_sqrt(x[0]),
    4 => |x| screens_ln(x[0]),
    5 => |x| screens_asinh(x[0]),
    6 => |x| screens_atan2(x[0], x[1]),
    7 => |x| screens_dot3(vectors(x).0, vectors(x).1),
    8 => |x| our_cross3(x),
    9 => |x| screens_norm3(vectors(x).0),
}

#[inline]
#[target_feature(enable = "fma")]
fn fused(a: f64, b: f64, c: f64) -> f64 {
    _mm_cvtsd_f64(_mm_fmadd_sd(_mm_set_sd(a), _mm_set_sd(b), _mm_set_sd(c)))
}

implementation! {
    #[target_feature(enable = "fma")]
    hardware:
    0 => |x| x[0],
    1 => |x| fused(x[0], x[1], x[2]),
    2 => |x| fused(x[0], x[0], x[1]),
    3 => |x| x[0].sqrt(),
}

/// A build of `kernels`.
fn rust(path: &str) -> (Run, Matrix) {
    let path = CString::new(path).expect("a path");
    const RTLD_NOW: c_int = 2;
    unsafe {
        let library = dlopen(path.as_ptr(), RTLD_NOW);
        assert!(!library.is_null(), "cannot load {path:?}");
        let find = |name: &CStr| {
            let found = dlsym(library, name.as_ptr());
            assert!(!found.is_null(), "{path:?} has no {name:?}");
            found
        };
        (
            std::mem::transmute::<*mut c_void, Run>(find(c"rust_run")),
            std::mem::transmute::<*mut c_void, Matrix>(find(c"rust_matrix")),
        )
    }
}

/// CPU time of this thread in seconds: others use the machine too.
fn now() -> f64 {
    const CLOCK_THREAD_CPUTIME_ID: c_int = 3;
    let mut time = [0; 2];
    let failed = unsafe { clock_gettime(CLOCK_THREAD_CPUTIME_ID, &mut time) };
    assert_eq!(failed, 0);
    time[0] as f64 + time[1] as f64 * 1e-9
}

const COUNT: usize = 1024;
const REPEATS: usize = 5;
/// The least time of one measurement, in seconds.
const LEAST: f64 = 0.02;

/// Normal numbers with sizes from 2^-low to 2^high.
fn inputs(low: i64, high: i64, positive: bool) -> Vec<Input> {
    let mut r = Rng(11);
    let mut number = || {
        let size = (1.0 + r.unit()) * 2f64.powi(r.range(low, high) as i32);
        if positive || r.one_in(2) { size } else { -size }
    };
    (0..COUNT).map(|_| std::array::from_fn(|_| number())).collect()
}

fn seconds(run: Run, function: usize, chained: bool, inputs: &[Input], passes: usize) -> f64 {
    let start = now();
    unsafe { run(function, chained, inputs.as_ptr(), inputs.len(), passes) };
    now() - start
}

/// Nanoseconds a call: median and spread (largest less least, over the median) of five measurements for each
/// implementation, taken in turns.
fn measure(runs: &[Option<Run>], function: usize, chained: bool, inputs: &[Input]) -> Vec<Option<(f64, f64)>> {
    let passes: Vec<usize> = runs
        .iter()
        .map(|run| {
            let mut passes = 1;
            while let Some(run) = *run
                && seconds(run, function, chained, inputs, passes) < LEAST
            {
                passes *= 2;
            }
            passes
        })
        .collect();
    let mut times = vec![vec![]; runs.len()];
    for _ in 0..REPEATS {
        for (k, run) in runs.iter().enumerate() {
            if let Some(run) = *run {
                let time = seconds(run, function, chained, inputs, passes[k]);
                times[k].push(time * 1e9 / (passes[k] * inputs.len()) as f64);
            }
        }
    }
    let summary = |mut times: Vec<f64>| {
        times.sort_by(f64::total_cmp);
        let median = *times.get(REPEATS / 2)?;
        Some((median, (times[REPEATS - 1] - times[0]) / median))
    };
    times.into_iter().map(summary).collect()
}

fn row(label: &str, cells: &[Option<(f64, f64)>]) {
    let time = |cell: Option<(f64, f64)>| cell.map_or("-".into(), |(ns, _)| format!("{ns:.2}"));
    let ratio = |k: usize| match (cells[0], cells[k]) {
        (Some((ours, _)), Some((other, _))) => format!("{:.2}", ours / other),
        _ => "-".into(),
    };
    let spread = cells.iter().flatten().map(|cell| cell.1).fold(0.0, f64::max);
    let [ours, hardware, portable, native] = std::array::from_fn(|k| time(cells[k]));
    println!(
        "| {label:40} | {ours:>7} | {hardware:>8} | {portable:>13} | {native:>11} | {:>13} | {:>11} | {:>5.0} % |",
        ratio(2),
        ratio(3),
        spread * 100.0
    );
}

/// The rules of a word such as 135, which stands in where there is none.
fn digits(word: Option<&String>) -> Vec<u32> {
    let word = word.map_or("135", String::as_str);
    word.bytes().map(|b| (b - b'0') as u32).collect()
}

fn main() {
    let words: Vec<String> = std::env::args().skip(1).collect();
    if let [first, what @ ..] = &words[..]
        && first == "ours"
    {
        return screens::ours(
            &digits(what.first()),
            what.get(1).map_or(3, |s| s.parse().expect("sizes")),
        );
    }
    if let [first, what @ ..] = &words[..]
        && first == "points"
    {
        return screens::points(&digits(what.first()));
    }
    if let [first] = &words[..]
        && first == "display"
    {
        return display::times();
    }
    let [portable, native, what @ ..] = &words[..] else {
        panic!(
            "usage: driver PORTABLE NATIVE [matrix | moves], or: driver ours [RULES [SIZES]], or: driver points [RULES], \
             or: driver display"
        )
    };
    let ((portable, portable_matrix), (native, native_matrix)) = (rust(portable), rust(native));
    match what.first().map(String::as_str) {
        Some("matrix") => {
            return screens::table(
                portable_matrix,
                native_matrix,
                &digits(what.get(1)),
                what.get(2).map_or(3, |s| s.parse().expect("sizes")),
                what.get(3).map_or(5, |s| s.parse().expect("rounds")),
            );
        }
        Some("moves") => return screens::moves(native_matrix, what.get(1).map_or(50, |s| s.parse().expect("moves"))),
        _ => {}
    }
    let has_fma = is_x86_feature_detected!("fma");
    let hardware = |function: usize| (has_fma && function <= 3).then_some(hardware as Run);
    println!(
        "Nanoseconds a call, medians of {REPEATS}; ratios are ours over the Rust's; spread is the widest of the row."
    );
    println!("Numbers are normal, of sizes from 2^-3 to 2^4, or over six decades where the row says so.\n");
    println!(
        "| {:40} | {:>7} | {:>8} | {:>13} | {:>11} | {:>13} | {:>11} | {:>7} |",
        "", "ours", "hardware", "Rust portable", "Rust native", "ours/portable", "ours/native", "spread"
    );
    println!(
        "|{}|--------:|---------:|--------------:|------------:|--------------:|------------:|--------:|",
        "-".repeat(42)
    );
    for chained in [false, true] {
        for (function, name) in FUNCTIONS.iter().enumerate() {
            let positive = matches!(*name, "square_add" | "sqrt" | "ln");
            let runs = [Some(ours as Run), hardware(function), Some(portable), Some(native)];
            let how = if chained { "chained" } else { "independent" };
            row(
                &format!("{name}, {how}"),
                &measure(&runs, function, chained, &inputs(-3, 3, positive)),
            );
            if !chained && matches!(*name, "mul_add" | "square_add" | "dot3" | "cross3" | "norm3") {
                let wide = inputs(-10, 10, positive);
                row(
                    &format!("{name}, {how}, six decades"),
                    &measure(&runs, function, chained, &wide),
                );
            }
        }
    }
}
