//! `screens energy`
use super::Command;
use crate::args::Args;
use crate::failure::Failure;
use crate::npy::Matrix;
use crate::{panels, values};
use screens::{triangle_mesh_inductance_from_potential_vectors, triangle_mesh_inductive_energy};
use std::ffi::OsString;

pub(super) const COMMAND: Command = Command {
    name: "energy",
    help: "\
usage: screens energy MATRIX.npy (--ring FILE | --values S [--with T])

The energy (joules) of a current on the screen, by its nodal values (amperes), one a node.

  --ring FILE         a unit ring on the panels of FILE: the values are 0 at the nodes of the rim and 1 at all others, so that one
                      ampere runs round the screen in the panels at its rim. The rim, also of a hole, is the edges of one panel only
  --values S          the values of a file: NumPy of shape (n,), or text with numbers parted by spaces or lines
  --values S --with T the sum of s × matrix × t without the half, for the values of two files

  screens energy plate.npy --ring examples/plate.pnl

Prints one number with as many digits as tell it from every other, and its unit.
",
    run,
};

fn run(words: Vec<OsString>) -> Result<String, Failure> {
    let mut args = Args::new(words, &[("--ring", 1), ("--values", 1), ("--with", 1)])?;
    let path = args.path("MATRIX.npy")?;
    args.end()?;
    let (ring, source, target) = (
        args.option_path("--ring"),
        args.option_path("--values"),
        args.option_path("--with"),
    );
    let s = match (&ring, &source) {
        (Some(ring), None) => values::unit_ring(&panels::read(ring)?.view()),
        (None, Some(source)) => values::read(source)?,
        _ => return Err(Failure::usage("give one of --ring and --values")),
    };
    let answer = match target {
        Some(_) if ring.is_some() => return Err(Failure::usage("--with goes with --values")),
        Some(target) => {
            let t = values::read(&target)?;
            let matrix = Matrix::read(&path)?;
            triangle_mesh_inductance_from_potential_vectors(&matrix.cells, &s, &t)
        }
        None => triangle_mesh_inductive_energy(&Matrix::read(&path)?.cells, &s),
    };
    let joules = answer.map_err(|refusal| Failure::refused(&path, refusal))?;
    Ok(format!("{joules:e} J\n"))
}
