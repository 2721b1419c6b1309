//! The panel file: "PNL", version 1 and the two counts (16 bits each), nodes as three f64, panels as three 16-bit indices, all
//! little-endian.
use super::view::TriangleMeshView;
use crate::Refusal;
use crate::ffi;
use crate::refusal::done;

/// Reads a panel file into six lent columns of exactly the file's counts. Refused with 14, 11, 15, 3, 4 or 6.
pub fn read_panel_file(
    file: &[u8],
    nodes: (&mut [f64], &mut [f64], &mut [f64]),
    triangles: (&mut [usize], &mut [usize], &mut [usize]),
) -> Result<(), Refusal> {
    done(ffi::read_panel_file(
        file,
        nodes.0,
        nodes.1,
        nodes.2,
        triangles.0,
        triangles.1,
        triangles.2,
    ))
}

/// The counts of nodes and panels in a file's first nine bytes, whatever else the file holds; none if it is shorter.
pub fn panel_file_counts(file: &[u8]) -> Option<(usize, usize)> {
    let count = |at: usize| Some(usize::from(u16::from_le_bytes([*file.get(at)?, *file.get(at + 1)?])));
    Some((count(5)?, count(7)?))
}

/// The length in bytes of a panel file of so many nodes and panels: 9 + 24 × nodes + 6 × panels. Counts whose sum is too large
/// for a `usize` give `usize::MAX`, a length that no buffer has.
pub const fn panel_file_length(nodes: usize, panels: usize) -> usize {
    9usize
        .saturating_add(nodes.saturating_mul(24))
        .saturating_add(panels.saturating_mul(6))
}

/// Writes the panel file of a mesh into lent bytes, exactly [`panel_file_length`] of them; otherwise refused with 6.
///
/// A NaN, whatever its bits, is written as 7ff8000000000000. [`read_panel_file`] gives back each coordinate bit for bit, NaN
/// counting as one number, and each index, so two meshes share a file only if they agree in all of these. A file without NaN
/// that is read and written again is the same, byte by byte.
///
/// ```
/// use screens::{TriangleMeshView, panel_file_length, read_panel_file, write_panel_file};
///
/// let (x, y, z) = ([0.0, 1.0, -0.0], [0.0, 0.0, 1.0], [0.5; 3]);
/// let mesh = TriangleMeshView::new((&x, &y, &z), (&[0], &[1], &[2]))?;
/// let mut file = vec![0; panel_file_length(mesh.nnode(), mesh.len())];
/// write_panel_file(&mesh, &mut file)?;
/// assert_eq!(file.len(), 87);
/// assert_eq!(file[..9], *b"PNL\x01\x00\x03\x00\x01\x00");
///
/// let [mut u, mut v, mut w] = [[7.0; 3]; 3];
/// let [mut a, mut b, mut c] = [[7]; 3];
/// read_panel_file(&file, (&mut u, &mut v, &mut w), (&mut a, &mut b, &mut c))?;
/// assert_eq!((u.map(f64::to_bits), a, b, c), (x.map(f64::to_bits), [0], [1], [2]));
/// # Ok::<(), screens::Refusal>(())
/// ```
pub fn write_panel_file(mesh: &TriangleMeshView<'_>, file: &mut [u8]) -> Result<(), Refusal> {
    let ((x, y, z), (t0, t1, t2)) = (mesh.nodes(), mesh.triangles());
    done(ffi::write_panel_file(x, y, z, t0, t1, t2, file))
}
