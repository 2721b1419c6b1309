//! `screens return`
use super::Command;
use crate::args::Args;
use crate::failure::Failure;
use crate::npy::Matrix;
use crate::outputs::Outputs;
use crate::{panels, store};
use std::ffi::OsString;

pub(super) const COMMAND: Command = Command {
    name: "return",
    help: "\
usage: screens return FILE STORE MATRIX.npy --name NAME --rule N -o OUT.npy [--mesh-out OUT.pnl]

Returns to a shape that `screens save` saved: sets the nodes of FILE to its coordinates, and renews the cells of the matrix whose
row or column belongs to a node of the panels of a node that differs: if MATRIX.npy was the matrix of FILE under rule N, OUT.npy is
that of the named shape, bit for bit. --mesh-out writes the panel file of the named shape too. An output may be the name of FILE or
MATRIX.npy, but not of STORE, which stays as it is. Both outputs are complete before either takes its place.

The renewed cells become the named shape's and all others keep their numbers, so a symmetric matrix stays symmetric. If cells of
MATRIX.npy below the diagonal differ from their mirror, a note on standard error says how many. A name that the store does not
hold is refused with 17.

  screens return moved.pnl plate.shapes plate.npy --name \"as cast\" --rule 3 -o plate.npy --mesh-out moved.pnl
",
    run,
};

fn run(words: Vec<OsString>) -> Result<String, Failure> {
    let options = [("--name", 1), ("--rule", 1), ("-o", 1), ("--mesh-out", 1)];
    let mut args = Args::new(words, &options)?;
    let (path, store_path) = (args.path("FILE")?, args.path("STORE")?);
    let matrix_path = args.path("MATRIX.npy")?;
    args.end()?;
    let name = store::name(&mut args)?;
    let rule = panels::rule(&args.needed_word("--rule")?)?;
    let outputs = Outputs::new(&mut args)?;
    outputs.spare(&store_path, "STORE")?;
    let mut mesh = panels::read(&path)?;
    let shapes = store::read(&store_path, &mesh)?;
    let mut matrix = Matrix::read(&matrix_path)?;
    // of the matrix as it was given: the return makes some of these cells alike
    let note = matrix.mirror_note();
    let (file, shown) = (path.display(), store::shown(&name));
    let count = mesh
        .return_to(&shapes, &name, rule, &mut matrix.cells)
        .map_err(|refusal| Failure::Refused(format!("{file}: return to \"{shown}\""), refusal))?;
    let renewed = outputs.renewed(count, &matrix, &mesh, &note)?;
    let rule = rule.number();
    Ok(format!("{file}: returned to \"{shown}\", rule {rule}\n{renewed}"))
}
