//! `screens row`
use super::Command;
use crate::args::{Args, number};
use crate::failure::Failure;
use crate::npy::Matrix;
use screens::{Refusal, display, triangle_mesh_matrix_row};
use std::ffi::OsString;

pub(super) const COMMAND: Command = Command {
    name: "row",
    help: "\
usage: screens row MATRIX.npy NODE

Shows the row of a node: a line a cell, the other node and the inductance in whole nanohenries, rounded once from the exact
value, a half to the even one. A cell that is not finite or above a million henries has no display value (number 16).

  screens row plate.npy 144 | sort -k2 -n | tail -n 3
",
    run,
};

fn run(words: Vec<OsString>) -> Result<String, Failure> {
    let mut args = Args::new(words, &[])?;
    let path = args.path("MATRIX.npy")?;
    let node: u64 = number(&args.place("NODE")?, "NODE")?;
    args.end()?;
    let matrix = Matrix::read(&path)?;
    // A number of a node that is too large for this machine is no node either.
    let node = usize::try_from(node).unwrap_or(usize::MAX);
    let row = triangle_mesh_matrix_row(&matrix.cells, matrix.n, node);
    let row = row.map_err(|refusal| Failure::Refused(format!("{}: node {node}", path.display()), refusal))?;
    let shown: Result<Vec<String>, (usize, Refusal)> = row
        .iter()
        .enumerate()
        .map(|(k, &cell)| {
            display(cell)
                .map(|value| format!("{k} {value}\n"))
                .map_err(|refusal| (k, refusal))
        })
        .collect();
    shown
        .map(|lines| lines.concat())
        .map_err(|(k, refusal)| Failure::Refused(format!("{}: row {node}, column {k}", path.display()), refusal))
}
