//! `screens matrix`
use super::Command;
use crate::args::Args;
use crate::failure::Failure;
use crate::npy::Matrix;
use crate::{files, panels};
use screens::triangle_mesh_inductance_matrix;
use std::ffi::OsString;
use std::time::Instant;

pub(super) const COMMAND: Command = Command {
    name: "matrix",
    help: "\
usage: screens matrix FILE --rule N -o OUT.npy

Computes the inductance matrix (henries) of a panel file and writes it as a NumPy file: float64, n rows of n, for n nodes.
Cell (b, a) below the diagonal is a copy of cell (a, b). N is the quadrature rule of far pairs, from 1 (one point, fastest) to
5 (seven points). Near pairs do not depend on it.

  screens matrix examples/plate.pnl --rule 3 -o plate.npy

prints the counts and the time, and `numpy.load('plate.npy')` reads the matrix.
",
    run,
};

fn run(words: Vec<OsString>) -> Result<String, Failure> {
    let mut args = Args::new(words, &[("--rule", 1), ("-o", 1)])?;
    let path = args.path("FILE")?;
    args.end()?;
    let rule = panels::rule(&args.needed_word("--rule")?)?;
    let out = args.output()?;
    let mesh = panels::read(&path)?;
    let mut matrix = Matrix::zeros(mesh.view().nnode());
    let start = Instant::now();
    triangle_mesh_inductance_matrix(&mesh.view(), rule, &mut matrix.cells)
        .map_err(|refusal| Failure::refused(&path, refusal))?;
    let seconds = start.elapsed().as_secs_f64();
    files::save(&out, |file| matrix.write(file))?;
    Ok(format!(
        "{}: {} nodes, {} panels, rule {}\n{} cells in {seconds:.2} s\n{}wrote {}\n",
        path.display(),
        matrix.n,
        mesh.view().len(),
        rule.number(),
        matrix.cells.len(),
        matrix.note(),
        out.display(),
    ))
}
