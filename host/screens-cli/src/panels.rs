//! Panel files as the commands read them, and what they say of them.
use crate::failure::Failure;
use crate::files;
use screens::mesh::{MAX_NODES, MAX_PANELS};
use screens::{QuadratureKind, Refusal, TriangleMesh, TriangleMeshView, panel_file_counts, panel_file_length};
use std::ffi::OsStr;
use std::path::Path;

/// One byte more than any file that can be accepted, with a value a node behind the panels. What is longer is refused whatever
/// follows, and its number is that of its first bytes.
const MOST: u64 = (panel_file_length(MAX_NODES, MAX_PANELS) + 8 * MAX_NODES + 1) as u64;

fn bytes(path: &Path) -> Result<Vec<u8>, Failure> {
    files::read_at_most(&mut files::open(path)?, path, MOST)
}

/// Reads a panel file.
pub(crate) fn read(path: &Path) -> Result<TriangleMesh, Failure> {
    TriangleMesh::from_panel_file(&bytes(path)?).map_err(|refusal| Failure::refused(path, refusal))
}

/// Reads a panel file with one number a node behind its panels, as the program `density` does.
pub(crate) fn read_with_values(path: &Path) -> Result<(TriangleMesh, Vec<f64>), Failure> {
    let bytes = bytes(path)?;
    let what = || format!("{}, with one value a node behind its panels", path.display());
    with_values(&bytes).map_err(|refusal| Failure::Refused(what(), refusal))
}

fn with_values(bytes: &[u8]) -> Result<(TriangleMesh, Vec<f64>), Refusal> {
    let (nodes, panels) = panel_file_counts(bytes).unwrap_or((0, 0));
    let (due, values) = (panel_file_length(nodes, panels), 8 * nodes);
    if bytes.len() == due + values {
        let (file, behind) = bytes.split_at(due);
        let (numbers, _) = behind.as_chunks::<8>();
        let values = numbers.iter().map(|number| f64::from_le_bytes(*number)).collect();
        return Ok((TriangleMesh::from_panel_file(file)?, values));
    }
    // Mark and limits come before the length. A file without the values is otherwise accepted.
    match TriangleMesh::from_panel_file(bytes) {
        Err(refusal @ (Refusal::Mark | Refusal::TooLarge)) => Err(refusal),
        _ => Err(Refusal::FileLength),
    }
}

/// What a mesh holds, by the name of what it was read from.
pub(crate) fn accepted(name: &str, mesh: &TriangleMeshView<'_>) -> String {
    let strange = (0..mesh.nnode())
        .filter(|&i| mesh.node(i).iter().any(|x| !x.is_finite()))
        .count();
    format!(
        "{name}: accepted\nnodes {}\npanels {}\npoor panels {}\nnodes that are not finite {strange}\n",
        mesh.nnode(),
        mesh.len(),
        mesh.poor_panels(),
    )
}

/// The rule of a word. A number that is none is refused with 12.
pub(crate) fn rule(word: &OsStr) -> Result<QuadratureKind, Failure> {
    let number: i64 = crate::args::number(word, "--rule")?;
    let kind = u32::try_from(number)
        .map_err(|_| Refusal::NoSuchChoice)
        .and_then(QuadratureKind::try_from);
    kind.map_err(|refusal| Failure::Refused(format!("--rule {number}"), refusal))
}
