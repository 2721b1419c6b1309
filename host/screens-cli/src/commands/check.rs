//! `screens check`
use super::Command;
use crate::args::Args;
use crate::failure::Failure;
use crate::panels;
use std::ffi::OsString;

pub(super) const COMMAND: Command = Command {
    name: "check",
    help: "\
usage: screens check FILE

Tests a panel file as every call does, and says what it holds. A panel is poor if its quality is below 1e-3 (1 for equal edges,
towards 0 for a sliver); poor panels are accepted, but look at them (`screens plot` marks them).

  screens check examples/plate.pnl

prints

  examples/plate.pnl: accepted
  nodes 289
  panels 512
  poor panels 0
  nodes that are not finite 0
",
    run,
};

fn run(words: Vec<OsString>) -> Result<String, Failure> {
    let mut args = Args::new(words, &[])?;
    let path = args.path("FILE")?;
    args.end()?;
    let mesh = panels::read(&path)?;
    Ok(panels::accepted(&path.display().to_string(), &mesh.view()))
}
