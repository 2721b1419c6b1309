//! `screens save`
use super::Command;
use crate::args::Args;
use crate::failure::Failure;
use crate::{panels, store};
use std::ffi::OsString;

pub(super) const COMMAND: Command = Command {
    name: "save",
    help: "\
usage: screens save FILE STORE --name NAME

Saves the shape of a panel file, the coordinates of all its nodes, under a name in a store of shapes, to return to it later. STORE
is made if there is none; it has eight places and belongs to screens of FILE's node count. Under a name that it holds, the shape
is replaced; a new name takes the first free place, and is refused with 18 if there is none. A name has one to eight bytes.

  screens save examples/plate.pnl plate.shapes --name \"as cast\"

STORE is 8 bytes of marks (0 for a free place), 64 of names (eight a place, filled with zero bytes), and the columns x, y and z of
8n little-endian float64 each for n nodes, place after place: 72 + 192n bytes. It is replaced whole or not at all.
",
    run,
};

fn run(words: Vec<OsString>) -> Result<String, Failure> {
    let mut args = Args::new(words, &[("--name", 1)])?;
    let (path, store_path) = (args.path("FILE")?, args.path("STORE")?);
    args.end()?;
    let name = store::name(&mut args)?;
    let mesh = panels::read(&path)?;
    let mut shapes = store::read_or_new(&store_path, &mesh)?;
    let (file, shown) = (path.display(), store::shown(&name));
    shapes
        .save(&mesh, &name)
        .map_err(|refusal| Failure::Refused(format!("{file}: save as \"{shown}\""), refusal))?;
    store::replace(&store_path, &shapes)?;
    let (place, written) = (store::place(&shapes, &name), store::written(&store_path, &shapes));
    Ok(format!("{file}: saved as \"{shown}\", place {place}\n{written}"))
}
