//! `screens plot`
use super::Command;
use crate::args::Args;
use crate::failure::Failure;
use crate::{files, panels, svg};
use std::ffi::OsString;

pub(super) const COMMAND: Command = Command {
    name: "plot",
    help: "\
usage: screens plot FILE -o OUT.svg

Draws the panels seen along the axis in which the screen extends least. Poor panels (quality below 1e-3) are marked red; nodes are
numbered if there are at most 100. Panels with a corner that is not finite are left out, and their count is printed.

  screens plot examples/plate.pnl -o plate.svg
",
    run,
};

fn run(words: Vec<OsString>) -> Result<String, Failure> {
    let mut args = Args::new(words, &[("-o", 1)])?;
    let path = args.path("FILE")?;
    args.end()?;
    let out = args.output()?;
    let mesh = panels::read(&path)?;
    let title = path
        .file_name()
        .unwrap_or(path.as_os_str())
        .to_string_lossy()
        .into_owned();
    let drawing = svg::draw(&mesh.view(), &title);
    files::save(&out, |file| file.write_all(drawing.text.as_bytes()))?;
    let left_out = match drawing.left_out {
        0 => String::new(),
        count => format!("note: {count} panels with a corner that is not finite are left out\n"),
    };
    Ok(format!(
        "{}: {} panels seen along {}, {} of them poor\n{left_out}wrote {}\n",
        path.display(),
        mesh.view().len(),
        drawing.along,
        mesh.view().poor_panels(),
        out.display(),
    ))
}
