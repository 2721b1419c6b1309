//! `screens density`
use super::Command;
use crate::args::Args;
use crate::failure::Failure;
use crate::{panels, values};
use screens::{TriangleMesh, triangle_mesh_current_density};
use std::ffi::OsString;
use std::fmt::Write;
use std::path::Path;

pub(super) const COMMAND: Command = Command {
    name: "density",
    help: "\
usage: screens density FILE [--values S] [--bits]

The current density (amperes a metre) on each panel, for nodal values (amperes), one a node. FILE is a panel file with the values
behind its panels, a little-endian float64 a node, as the program `density` reads it; or, with --values, a panel file alone and the
values in another file (NumPy of shape (n,), or text with numbers parted by spaces or lines).

Prints a line of mark, version, nodes and panels, then a line a panel: its number and jx, jy, jz. With --bits the three are
hexadecimal bits, which is the text of the program `density`; here up to 4,096 nodes and 8,192 panels are taken.

  screens density examples/plate.pnl --values values.txt
",
    run,
};

fn run(words: Vec<OsString>) -> Result<String, Failure> {
    let mut args = Args::new(words, &[("--values", 1), ("--bits", 0)])?;
    let path = args.path("FILE")?;
    args.end()?;
    let bits = args.option("--bits").is_some();
    let (mesh, s) = match args.option_path("--values") {
        Some(source) => (panels::read(&path)?, values::read(&source)?),
        None => panels::read_with_values(&path)?,
    };
    let columns = densities(&mesh, &s, &path)?;
    Ok(text(&mesh, &columns, if bits { hexadecimal } else { decimal }))
}

fn densities(mesh: &TriangleMesh, s: &[f64], path: &Path) -> Result<[Vec<f64>; 3], Failure> {
    let mut columns = [0, 1, 2].map(|_| vec![0.0; mesh.view().len()]);
    let [x, y, z] = &mut columns;
    triangle_mesh_current_density(&mesh.view(), s, (x, y, z)).map_err(|refusal| Failure::refused(path, refusal))?;
    Ok(columns)
}

fn text(mesh: &TriangleMesh, [x, y, z]: &[Vec<f64>; 3], show: fn(f64) -> String) -> String {
    let mut text = format!("PNL 1 {} {}\n", mesh.view().nnode(), mesh.view().len());
    for i in 0..mesh.view().len() {
        // Writing to a text does not fail.
        let _ = writeln!(text, "{i} {} {} {}", show(x[i]), show(y[i]), show(z[i]));
    }
    text
}

fn decimal(x: f64) -> String {
    x.to_string()
}

/// The bits, any NaN as one.
fn hexadecimal(x: f64) -> String {
    let bits = if x.is_nan() { 0x7ff8_0000_0000_0000 } else { x.to_bits() };
    format!("{bits:016x}")
}
