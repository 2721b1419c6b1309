//! `screens drop`
use super::Command;
use crate::args::Args;
use crate::failure::Failure;
use crate::{panels, store};
use std::ffi::OsString;

pub(super) const COMMAND: Command = Command {
    name: "drop",
    help: "\
usage: screens drop FILE STORE --name NAME

Drops a shape that `screens save` saved: its place in the store is free. FILE is a panel file of the screen, in any shape; it has to
be accepted and to have the store's node count. If two places hold the name, the first is dropped. A name that the store does not
hold is refused with 17. STORE is replaced whole or not at all.

  screens drop examples/plate.pnl plate.shapes --name bent
",
    run,
};

fn run(words: Vec<OsString>) -> Result<String, Failure> {
    let mut args = Args::new(words, &[("--name", 1)])?;
    let (path, store_path) = (args.path("FILE")?, args.path("STORE")?);
    args.end()?;
    let name = store::name(&mut args)?;
    let mesh = panels::read(&path)?;
    let mut shapes = store::read(&store_path, &mesh)?;
    let place = store::place(&shapes, &name);
    let (file, shown) = (path.display(), store::shown(&name));
    shapes
        .forget(&mesh, &name)
        .map_err(|refusal| Failure::Refused(format!("{file}: drop of \"{shown}\""), refusal))?;
    store::replace(&store_path, &shapes)?;
    let written = store::written(&store_path, &shapes);
    Ok(format!("{file}: dropped \"{shown}\", place {place}\n{written}"))
}
