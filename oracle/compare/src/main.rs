//! Compares our library, through the Rust crate `screens`, with the original Rust: cases by seed for every kind that ours
//! answers, every result word in bits, every NaN as one number, and a matrix's cells below the diagonal as copies of those above;
//! and panel files there and back by ours.
//! usage: compare [SEED [SCALE [KIND]]], compare soak [MINUTES [SEED [SCALE]]], or compare findings
//! The exit status is 0 if all agree, 1 if any differ, and 2 if it was asked for something else or if a kind had no case.
mod findings;
mod ours;

use oracle::eval;
use oracle::generate;
use ours::Answer;
use std::process::ExitCode;
use std::time::Instant;

/// How many differing cases of a kind are shown.
const SHOWN: usize = 3;

/// How many cases there were, and how many differed.
#[derive(Clone, Copy, Default)]
struct Count {
    cases: u64,
    differ: u64,
}

impl std::ops::AddAssign for Count {
    fn add_assign(&mut self, other: Count) {
        self.cases += other.cases;
        self.differ += other.differ;
    }
}

fn hex(words: &[u64]) -> String {
    words.iter().map(|w| format!("{w:016x}")).collect::<Vec<_>>().join(" ")
}

/// Compares the cases of one kind.
fn compare(name: &str, answer: &Answer, seed: u64, scale: f64) -> Count {
    let kind = eval::kind(name).expect(name);
    let mut count = Count::default();
    generate::all(seed, scale, Some(kind), |_, input, due| {
        count.cases += 1;
        let got = answer(input);
        if got != due {
            count.differ += 1;
            if count.differ <= SHOWN as u64 {
                println!("{name} {}\n  due {}\n  got {}", hex(input), hex(due), hex(&got));
            }
        }
    });
    count
}

/// Compares every kind, or one, and prints a line a kind.
fn run(seed: u64, scale: f64, only: Option<&str>) -> Result<bool, String> {
    let answers = ours::answers();
    if let Some(kind) = only.filter(|kind| answers.iter().all(|(name, _)| name != kind)) {
        return Err(format!("ours has no call of the kind {kind}"));
    }
    let (mut all, mut empty, mut kinds) = (Count::default(), vec![], 0);
    for (name, answer) in answers.iter().filter(|(name, _)| only.is_none_or(|o| o == *name)) {
        kinds += 1;
        let count = compare(name, answer, seed, scale);
        println!("{name:18} {:9} cases {:6} differ", count.cases, count.differ);
        all += count;
        empty.extend((count.cases == 0).then_some(*name));
    }
    let rest = eval::NAMES.into_iter().filter(|n| answers.iter().all(|(m, _)| m != n));
    println!("no call of ours: {}", rest.collect::<Vec<_>>().join(" "));
    println!("seed {seed}: {kinds} kinds, {} cases, {} differ", all.cases, all.differ);
    compared(all, &empty)
}

/// Compares every kind with one seed after another until the time is over, at least with one, and prints a line a seed.
fn soak(minutes: f64, first: u64, scale: f64) -> Result<bool, String> {
    let (start, answers) = (Instant::now(), ours::answers());
    let (mut all, mut empty, mut seed) = (Count::default(), vec![], first);
    loop {
        let mut count = Count::default();
        for (name, answer) in &answers {
            let of_kind = compare(name, answer, seed, scale);
            count += of_kind;
            empty.extend((of_kind.cases == 0).then_some(*name));
        }
        println!("seed {seed}: {} cases, {} differ", count.cases, count.differ);
        all += count;
        if start.elapsed().as_secs_f64() >= 60.0 * minutes {
            break;
        }
        seed += 1;
    }
    println!(
        "soak of {:.1} minutes: seeds {first} to {seed}, {} kinds, {} cases, {} differ",
        start.elapsed().as_secs_f64() / 60.0,
        answers.len(),
        all.cases,
        all.differ
    );
    compared(all, &empty)
}

/// Whether all agree, if each kind had cases.
fn compared(all: Count, empty: &[&str]) -> Result<bool, String> {
    match empty.first() {
        None if all.cases > 0 => Ok(all.differ == 0),
        None => Err("no case was compared".into()),
        Some(kind) => Err(format!("no case of the kind {kind} was compared: SCALE is too small")),
    }
}

/// A number above 0.
fn positive(word: Option<&&str>, what: &str, default: f64) -> Result<f64, String> {
    let Some(word) = word else { return Ok(default) };
    match word.parse() {
        Ok(number) if number > 0.0 && f64::is_finite(number) => Ok(number),
        _ => Err(format!("{what} must be a number above 0: {word}")),
    }
}

/// Any whole number, 1 if there is none.
fn seed(word: Option<&&str>) -> Result<u64, String> {
    word.map_or(Ok(1), |word| {
        word.parse().map_err(|_| format!("SEED must be a whole number: {word}"))
    })
}

/// Does what is asked; whether all agree.
fn asked(words: &[&str]) -> Result<bool, String> {
    match words {
        ["findings"] => Ok(findings::run()),
        ["soak", rest @ ..] if rest.len() <= 3 => {
            let minutes = positive(rest.first(), "MINUTES", 30.0)?;
            soak(minutes, seed(rest.get(1))?, positive(rest.get(2), "SCALE", 1.0)?)
        }
        _ if words.len() <= 3 => run(
            seed(words.first())?,
            positive(words.get(1), "SCALE", 1.0)?,
            words.get(2).copied(),
        ),
        _ => Err(format!("too many words: {}", words.join(" "))),
    }
}

fn main() -> ExitCode {
    let words: Vec<String> = std::env::args().skip(1).collect();
    let words: Vec<&str> = words.iter().map(String::as_str).collect();
    match asked(&words) {
        Ok(true) => ExitCode::SUCCESS,
        Ok(false) => ExitCode::FAILURE,
        Err(why) => {
            eprintln!("compare: {why}");
            ExitCode::from(2)
        }
    }
}
