//! Named shapes of a mesh in a lent store: saving the present one, dropping one, and returning to one with its matrix.
//!
//! A store has eight places: 8 bytes of marks, 0 for a free place and anything else for a held one; 64 bytes of names, eight a
//! place; and three columns of 8n coordinates (m) for n nodes, n a place. The name of a free place is not looked at. Where two
//! held places have one name, the first counts.
use super::QuadratureKind;
use crate::Refusal;
use crate::ffi;
use crate::refusal::{done, valued};

/// Saves the coordinates of a mesh under a name in a lent store of eight places: 8 marks, 64 bytes of names, and three columns
/// of 8n numbers for n nodes, place after place.
///
/// Under a held name only the coordinates are written: a mark of 7 stays 7. A new name takes the first place whose mark is 0,
/// and the mark becomes 1. Nothing else is written. [`Shapes`](crate::Shapes) is a store that owns its parts.
///
/// # Errors
///
/// Refused with 1, 2, 11, 3 or 4 for the mesh, 6 for a part of the store that has another length, and 18 if the name is new and
/// all eight places are held. Every part is then as it was.
///
/// ```
/// use screens::{Refusal, save_shape};
///
/// let (x, y, z) = ([0.0, 1.0, 0.0], [0.0, 0.0, 1.0], [0.5; 3]);
/// let (mut marks, mut names) = ([0; 8], [0; 64]);
/// let [mut sx, mut sy, mut sz] = [[0.0; 24]; 3];
/// let mut save = |name| {
///     let shapes = (&mut sx[..], &mut sy[..], &mut sz[..]);
///     save_shape((&x, &y, &z), (&[0], &[1], &[2]), &mut marks, &mut names, shapes, name)
/// };
/// assert_eq!((save(b"as cast\0"), save(b"bent    ")), (Ok(()), Ok(())));
/// assert_eq!(marks, [1, 1, 0, 0, 0, 0, 0, 0]);
/// assert_eq!(names[..16], *b"as cast\0bent    ");
/// assert_eq!((&sx[3..6], sz[5]), (&x[..], 0.5));
///
/// let full = save_shape((&x, &y, &z), (&[0], &[1], &[2]), &mut [9; 8], &mut names, (&mut sx, &mut sy, &mut sz), b"a ninth ");
/// assert_eq!(full, Err(Refusal::NoPlace));
/// ```
pub fn save_shape(
    nodes: (&[f64], &[f64], &[f64]),
    triangles: (&[usize], &[usize], &[usize]),
    marks: &mut [u8],
    names: &mut [u8],
    shapes: (&mut [f64], &mut [f64], &mut [f64]),
    name: &[u8; 8],
) -> Result<(), Refusal> {
    let ((x, y, z), (t0, t1, t2), (sx, sy, sz)) = (nodes, triangles, shapes);
    done(ffi::save_shape(x, y, z, t0, t1, t2, marks, names, sx, sy, sz, name))
}

/// Frees the first held place of a name in a lent store, laid out as for [`save_shape`]: its mark becomes 0. Nothing else is
/// written, so the name and the coordinates stay there as bytes. The mesh is tested as by every call.
///
/// # Errors
///
/// Refused with 1, 2, 11, 3 or 4 for the mesh, 6 for a part of the store that has another length, and 17 if no held place has
/// the name. The marks are then as they were.
///
/// ```
/// use screens::{Refusal, drop_shape};
///
/// let (x, y, z) = ([0.0, 1.0, 0.0], [0.0, 0.0, 1.0], [0.0; 3]);
/// let (mut marks, names, column) = ([0, 7, 7, 0, 0, 0, 0, 0], [b'a'; 64], [0.0; 24]);
/// let mut drop = || {
///     drop_shape((&x, &y, &z), (&[0], &[1], &[2]), &mut marks, &names, (&column, &column, &column), b"aaaaaaaa")
/// };
/// // two places hold the name; those that are free are not looked at
/// assert_eq!((drop(), drop(), drop()), (Ok(()), Ok(()), Err(Refusal::UnknownName)));
/// assert_eq!(marks, [0; 8]);
/// ```
pub fn drop_shape(
    nodes: (&[f64], &[f64], &[f64]),
    triangles: (&[usize], &[usize], &[usize]),
    marks: &mut [u8],
    names: &[u8],
    shapes: (&[f64], &[f64], &[f64]),
    name: &[u8; 8],
) -> Result<(), Refusal> {
    let ((x, y, z), (t0, t1, t2), (sx, sy, sz)) = (nodes, triangles, shapes);
    done(ffi::drop_shape(x, y, z, t0, t1, t2, marks, names, sx, sy, sz, name))
}

/// Returns to a named shape of a lent store, laid out as for [`save_shape`]: sets all coordinates to those saved, and makes
/// every cell of the matrix whose row or column belongs to a node of the panels of a node that differs the named shape's own. If
/// the matrix was the mesh's, it then is the named shape's, bit for bit. Yields the count of those cells, each counted one time.
///
/// A node differs if one of its three numbers does; +0 and −0 differ, two NaN do not. All other cells keep their numbers,
/// whatever these are; a symmetric matrix stays symmetric in every bit. The store is not written.
///
/// # Errors
///
/// Refused with 1, 2, 11, 3 or 4 for the mesh, 6 for a part of the store that has another length or a matrix of other than n × n
/// cells, 17 if no held place has the name, and 4 if a panel of the named shape has no area. Columns and matrix are then as they
/// were.
///
/// ```
/// use screens::{QuadratureKind, TriangleMeshView, return_shape, triangle_mesh_inductance_matrix};
///
/// let rule = QuadratureKind::Dunavant3;
/// let matrix_of = |x: &[f64], y: &[f64], z: &[f64]| {
///     let mut matrix = [0.0; 9];
///     let mesh = TriangleMeshView::new((x, y, z), (&[0], &[1], &[2]))?;
///     triangle_mesh_inductance_matrix(&mesh, rule, &mut matrix).map(|()| matrix)
/// };
/// let (mut x, mut y, mut z) = ([0.0, 1.0, 0.0], [0.0, 0.0, 1.0], [0.0; 3]);
/// let mut matrix = matrix_of(&x, &y, &z)?;
///
/// // the third place holds the same panel, its first node raised
/// let (marks, names) = ([0, 0, 1, 0, 0, 0, 0, 0], [b'r'; 64]);
/// let [sx, sy, mut sz] = [[0.0, 1.0, 0.0].repeat(8), [0.0, 0.0, 1.0].repeat(8), vec![0.0; 24]];
/// sz[6] = 0.25;
/// let (nodes, shapes) = ((&mut x[..], &mut y[..], &mut z[..]), (&sx[..], &sy[..], &sz[..]));
/// let count = return_shape(nodes, (&[0], &[1], &[2]), rule, &mut matrix, &marks, &names, shapes, b"rrrrrrrr")?;
/// assert_eq!((count, z), (9, [0.25, 0.0, 0.0]));
/// assert_eq!(matrix, matrix_of(&x, &y, &z)?);
/// # Ok::<(), screens::Refusal>(())
/// ```
#[allow(clippy::too_many_arguments)]
pub fn return_shape(
    nodes: (&mut [f64], &mut [f64], &mut [f64]),
    triangles: (&[usize], &[usize], &[usize]),
    quad_kind: QuadratureKind,
    matrix: &mut [f64],
    marks: &[u8],
    names: &[u8],
    shapes: (&[f64], &[f64], &[f64]),
    name: &[u8; 8],
) -> Result<usize, Refusal> {
    let ((x, y, z), (t0, t1, t2), (sx, sy, sz)) = (nodes, triangles, shapes);
    let rule = quad_kind.number();
    valued(|count| ffi::return_shape(rule, x, y, z, t0, t1, t2, matrix, marks, names, sx, sy, sz, name, count))
}
