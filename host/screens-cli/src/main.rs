//! The tool `screens`: checks and writes panel files, computes, moves and shows their inductance matrices, keeps shapes by name.
//!
//! Exit status: 0 done, 1 refused (the message has document 01's number and word), 2 bad usage or trouble with a file.
mod args;
mod commands;
mod failure;
mod files;
mod help;
mod npy;
mod numbers;
mod outputs;
mod panels;
mod rows;
mod store;
mod svg;
mod values;

use failure::Failure;
use std::ffi::OsString;
use std::io::{ErrorKind, Write};
use std::process::ExitCode;

/// What the library needs several times over, whatever the shell's limit is.
const STACK: usize = 8 << 20;

fn main() -> ExitCode {
    let words: Vec<OsString> = std::env::args_os().skip(1).collect();
    match on_thread(move || run(words)) {
        Ok(text) => print(&text),
        Err(failure) => {
            // Nothing is left to do if standard error is closed.
            let _ = writeln!(std::io::stderr(), "screens: {failure}");
            failure.status()
        }
    }
}

/// Does the work on a thread with enough stack.
fn on_thread(work: impl FnOnce() -> Result<String, Failure> + Send + 'static) -> Result<String, Failure> {
    let thread = std::thread::Builder::new().stack_size(STACK).spawn(work);
    let thread = thread.map_err(|error| Failure::Trouble(format!("no thread to work on: {error}")))?;
    thread
        .join()
        .unwrap_or_else(|_| Err(Failure::Trouble("this is a fault of the tool".into())))
}

/// Runs a command and yields what it prints. Everything is computed and written to files before anything is printed.
fn run(words: Vec<OsString>) -> Result<String, Failure> {
    let mut words = words.into_iter();
    let Some(first) = words.next() else {
        return Err(Failure::usage(format!("a command is missing\n\n{}", help::GENERAL)));
    };
    let rest: Vec<OsString> = words.collect();
    let name = first.to_string_lossy();
    match &*name {
        "help" | "--help" | "-h" => help::asked(rest.first()),
        "--version" | "-V" => Ok(format!("screens {}\n", env!("CARGO_PKG_VERSION"))),
        _ => {
            let command = commands::named(&name)?;
            if rest.iter().any(|word| word == "--help" || word == "-h") {
                return Ok(command.help.to_string());
            }
            (command.run)(rest).map_err(|failure| failure.with_usage(command))
        }
    }
}

/// Prints a text. A reader that has gone has what it wanted.
fn print(text: &str) -> ExitCode {
    let mut out = std::io::stdout().lock();
    match out.write_all(text.as_bytes()).and_then(|()| out.flush()) {
        Err(error) if error.kind() != ErrorKind::BrokenPipe => {
            let _ = writeln!(std::io::stderr(), "screens: standard output: {error}");
            ExitCode::from(2)
        }
        _ => ExitCode::SUCCESS,
    }
}
