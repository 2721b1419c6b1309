//! `screens write`
use super::Command;
use crate::args::Args;
use crate::failure::Failure;
use crate::{files, panels, rows};
use screens::TriangleMesh;
use std::ffi::OsString;
use std::path::Path;

pub(super) const COMMAND: Command = Command {
    name: "write",
    help: "\
usage: screens write (NODES PANELS | FILE) -o OUT.pnl

Writes a panel file: that of the nodes and panels of two files, or a panel file anew. The mesh is tested as every call does, and
what it holds is printed as by `screens check`. An output may be the input's own name.

  NODES   a row a node, its x, y and z (metres): NumPy of shape (n, 3), float64, or text with three numbers a line
  PANELS  a row a panel, the nodes of its corners: NumPy of shape (p, 3), int64, or text with three whole numbers a line

A NumPy file must be in C order; `numpy.ascontiguousarray` makes it so. In a text, empty lines and what stands behind # are passed
over. A file may have no row. Coordinates that are not finite (nan and inf in a text) are taken, and their nodes counted.

A NaN is written as 7ff8000000000000. Every other coordinate keeps its bits, so a panel file without NaN is written as it was.

  screens write nodes.txt panels.txt -o plate.pnl
  screens write plate.pnl -o plate.pnl
",
    run,
};

fn run(words: Vec<OsString>) -> Result<String, Failure> {
    let mut args = Args::new(words, &[("-o", 1)])?;
    let (first, second) = (args.path("NODES or FILE")?, args.next_path());
    args.end()?;
    let out = args.output()?;
    let (name, mesh) = match second {
        None => (first.display().to_string(), panels::read(&first)?),
        Some(second) => of_rows(&first, &second)?,
    };
    let file = mesh.to_panel_file();
    files::save(&out, |written| written.write_all(&file))?;
    Ok(format!(
        "{}wrote {}\n",
        panels::accepted(&name, &mesh.view()),
        out.display()
    ))
}

/// The mesh of two files, and what it is called.
fn of_rows(nodes: &Path, panels: &Path) -> Result<(String, TriangleMesh), Failure> {
    let name = format!("{} and {}", nodes.display(), panels.display());
    match TriangleMesh::new(rows::nodes(nodes)?, rows::panels(panels)?) {
        Ok(mesh) => Ok((name, mesh)),
        Err(refusal) => Err(Failure::Refused(name, refusal)),
    }
}
