//! `screens move`
use super::Command;
use crate::args::{Args, number};
use crate::failure::Failure;
use crate::npy::Matrix;
use crate::outputs::Outputs;
use crate::panels;
use std::ffi::{OsStr, OsString};

pub(super) const COMMAND: Command = Command {
    name: "move",
    help: "\
usage: screens move FILE MATRIX.npy --node K --to X Y Z --rule N -o OUT.npy [--mesh-out OUT.pnl]

Moves node K of a panel file to the place X Y Z (metres), and renews the cells of the matrix whose row or column belongs to a
node of its panels: if MATRIX.npy was the matrix of FILE under rule N, OUT.npy is that of the moved screen, bit for bit, in a
part of the time. --mesh-out writes the moved panel file too, so that a run of moves can go on from both. An output may be the
input's own name. Both outputs are complete before either takes its place.

The renewed cells become the moved screen's and all others keep their numbers, so a symmetric matrix stays symmetric. If cells
of MATRIX.npy below the diagonal differ from their mirror, a note on standard error says how many.

  screens move examples/plate.pnl plate.npy --node 144 --to 0.5 0.5 0.01 --rule 3 -o plate.npy --mesh-out moved.pnl
  screens move moved.pnl plate.npy --node 145 --to 0.56 0.5 0.01 --rule 3 -o plate.npy --mesh-out moved.pnl
",
    run,
};

fn run(words: Vec<OsString>) -> Result<String, Failure> {
    let options = [("--node", 1), ("--to", 3), ("--rule", 1), ("-o", 1), ("--mesh-out", 1)];
    let mut args = Args::new(words, &options)?;
    let (path, matrix_path) = (args.path("FILE")?, args.path("MATRIX.npy")?);
    args.end()?;
    let node: u64 = number(&args.needed_word("--node")?, "--node")?;
    let place = place(&args.needed("--to")?)?;
    let rule = panels::rule(&args.needed_word("--rule")?)?;
    let outputs = Outputs::new(&mut args)?;
    let mut mesh = panels::read(&path)?;
    let mut matrix = Matrix::read(&matrix_path)?;
    // of the matrix as it was given: the move makes some of these cells alike
    let note = matrix.mirror_note();
    let at = usize::try_from(node).unwrap_or(usize::MAX);
    let count = mesh
        .move_node(rule, &mut matrix.cells, at, place)
        .map_err(|refusal| Failure::Refused(format!("{}: move of node {node}", path.display()), refusal))?;
    let renewed = outputs.renewed(count, &matrix, &mesh, &note)?;
    Ok(format!(
        "{}: node {node} to {} {} {}, rule {}\n{renewed}",
        path.display(),
        place[0],
        place[1],
        place[2],
        rule.number(),
    ))
}

/// A place in metres. The library takes what is not finite, as the original does; a person who types it does not mean it.
fn place(words: &[OsString]) -> Result<[f64; 3], Failure> {
    let coordinate = |word: &OsStr| match number(word, "--to")? {
        x if f64::is_finite(x) => Ok(x),
        _ => Err(Failure::usage(format!("--to: {} is no place", word.display()))),
    };
    Ok([coordinate(&words[0])?, coordinate(&words[1])?, coordinate(&words[2])?])
}
