//! `screens shapes`
use super::Command;
use crate::args::Args;
use crate::failure::Failure;
use crate::store;
use std::ffi::OsString;

pub(super) const COMMAND: Command = Command {
    name: "shapes",
    help: "\
usage: screens shapes STORE

Lists the shapes that a store holds: a line a held place, with the place (from 0), its mark and the name. Zero bytes at the end of
a name are left out; bytes that would not be seen are escaped, as \\n or \\xff, and so are a backslash and a double quote. If two
places hold one name, the first counts.

  screens shapes plate.shapes
",
    run,
};

fn run(words: Vec<OsString>) -> Result<String, Failure> {
    let mut args = Args::new(words, &[])?;
    let path = args.path("STORE")?;
    args.end()?;
    let shapes = store::read_any(&path)?;
    let lines: Vec<String> = shapes
        .names()
        .map(|(place, mark, name)| format!("{place} {mark} {}\n", store::shown(&name)))
        .collect();
    match lines.is_empty() {
        true => Ok(format!("{}: no place is held\n", path.display())),
        false => Ok(lines.concat()),
    }
}
