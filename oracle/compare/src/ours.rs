//! Our answers: the crate's calls, and the program `density` if SCREENS_DENSITY names it.
use oracle::eval::{In, Out};
use std::ffi::{OsStr, OsString};
use std::io::Write;
use std::process::{Command, Stdio};

/// The result words for a case's input words.
pub type Answer = Box<dyn Fn(&[u64]) -> Vec<u64>>;

/// A kind's name and our answer to its cases.
pub fn answers() -> Vec<(&'static str, Answer)> {
    let of_crate = |&(name, call): &(&'static str, replay::Call)| -> (&'static str, Answer) {
        (name, Box::new(move |input| replay::answer(call, input)))
    };
    let mut answers: Vec<_> = replay::CALLS.iter().map(of_crate).collect();
    if let Some(program) = std::env::var_os("SCREENS_DENSITY") {
        answers.push(("density_program", Box::new(move |input| density(&program, input))));
    }
    answers
}

/// What the program `density` writes for what it reads. It may end before it has read all.
fn density(program: &OsString, input: &[u64]) -> Vec<u64> {
    let mut program = Command::new::<&OsStr>(program)
        .stdin(Stdio::piped())
        .stdout(Stdio::piped())
        .spawn()
        .expect("density");
    let read = In::new(input).bytes();
    let _ = program.stdin.take().expect("standard input").write_all(&read);
    Out::default()
        .bytes(&program.wait_with_output().expect("density").stdout)
        .0
}
