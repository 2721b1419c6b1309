//! Coupling of two panels, blocks, the matrix of a mesh and the move of a node.
use super::QuadratureKind;
use crate::Refusal;
use crate::ffi;
use crate::mesh::TriangleMeshView;
use crate::refusal::{done, rows, valued};

/// The geometric coupling (m³) of a source and a target panel: near or far by document 01's rule.
///
/// ```
/// use screens::{QuadratureKind, triangle_geometric_coupling};
///
/// let (a, b, c) = ([0.0, 0.0, 0.0], [1.0, 0.0, 0.0], [0.0, 1.0, 0.0]);
/// let with_itself = triangle_geometric_coupling(a, b, c, a, b, c, QuadratureKind::Dunavant5);
/// let raised = |z| triangle_geometric_coupling(a, b, c, [0.0, 0.0, z], [1.0, 0.0, z], [0.0, 1.0, z], QuadratureKind::Dunavant5);
/// assert!(with_itself > raised(1.0) && raised(1.0) > raised(2.0));
/// ```
pub fn triangle_geometric_coupling(
    src0: [f64; 3],
    src1: [f64; 3],
    src2: [f64; 3],
    tgt0: [f64; 3],
    tgt1: [f64; 3],
    tgt2: [f64; 3],
    quad_kind: QuadratureKind,
) -> f64 {
    chosen(valued(|value| {
        ffi::coupling(quad_kind.number(), [src0, src1, src2], [tgt0, tgt1, tgt2], value)
    }))
}

/// The far rule's coupling (m³), from the source to the target only.
pub fn triangle_geometric_coupling_regular(
    src0: [f64; 3],
    src1: [f64; 3],
    src2: [f64; 3],
    tgt0: [f64; 3],
    tgt1: [f64; 3],
    tgt2: [f64; 3],
    quad_kind: QuadratureKind,
) -> f64 {
    chosen(valued(|value| {
        ffi::coupling_regular(quad_kind.number(), [src0, src1, src2], [tgt0, tgt1, tgt2], value)
    }))
}

/// The inductances (H) between the corners of a source and of a target panel, a row a source corner.
pub fn triangle_basis_mutual_inductance_block(
    src0: [f64; 3],
    src1: [f64; 3],
    src2: [f64; 3],
    tgt0: [f64; 3],
    tgt1: [f64; 3],
    tgt2: [f64; 3],
    quad_kind: QuadratureKind,
) -> [[f64; 3]; 3] {
    rows(chosen(valued(|out| {
        ffi::mutual_inductance_block(quad_kind.number(), [src0, src1, src2], [tgt0, tgt1, tgt2], out)
    })))
}

/// One inductance (H) of the block. Refused with 12 for a corner above 2, where the original stops the program.
///
/// ```
/// use screens::{QuadratureKind, Refusal, triangle_basis_mutual_inductance, triangle_basis_mutual_inductance_block};
///
/// let (a, b, c) = ([0.0, 0.0, 0.0], [1.0, 0.0, 0.0], [0.0, 1.0, 0.0]);
/// let rule = QuadratureKind::Dunavant2;
/// let block = triangle_basis_mutual_inductance_block(a, b, c, a, b, c, rule);
/// assert_eq!(triangle_basis_mutual_inductance(a, b, c, 1, a, b, c, 2, rule), Ok(block[1][2]));
/// assert_eq!(triangle_basis_mutual_inductance(a, b, c, 3, a, b, c, 2, rule), Err(Refusal::NoSuchChoice));
/// ```
#[allow(clippy::too_many_arguments)]
pub fn triangle_basis_mutual_inductance(
    src0: [f64; 3],
    src1: [f64; 3],
    src2: [f64; 3],
    src_basis: usize,
    tgt0: [f64; 3],
    tgt1: [f64; 3],
    tgt2: [f64; 3],
    tgt_basis: usize,
    quad_kind: QuadratureKind,
) -> Result<f64, Refusal> {
    let (source, target) = ([src0, src1, src2], [tgt0, tgt1, tgt2]);
    valued(|value| ffi::mutual_inductance(quad_kind.number(), source, src_basis, target, tgt_basis, value))
}

/// The sum of source values × block × target values (H A²).
pub fn triangle_inductance_from_potential_vectors(m_block: [[f64; 3]; 3], s_src: [f64; 3], s_tgt: [f64; 3]) -> f64 {
    ffi::inductance_from_potentials(m_block, s_src, s_tgt)
}

/// Writes the inductance matrix (H) of a mesh, row by row, to n × n cells. Any other length is refused with 6.
///
/// Cell (b, a) below the diagonal is a copy of cell (a, b), which is the original's, so the matrix is symmetric in every bit.
///
/// ```
/// use screens::{QuadratureKind, Refusal, TriangleMeshView, triangle_mesh_inductance_matrix};
///
/// let (x, y, z) = ([0.0, 1.0, 0.0], [0.0, 0.0, 1.0], [0.0; 3]);
/// let mesh = TriangleMeshView::new((&x, &y, &z), (&[0], &[1], &[2]))?;
/// let mut out = vec![0.0; 9];
/// triangle_mesh_inductance_matrix(&mesh, QuadratureKind::Dunavant3, &mut out)?;
/// assert!(out[0] > 0.0);
/// assert_eq!(out[1].to_bits(), out[3].to_bits());
/// assert_eq!(
///     triangle_mesh_inductance_matrix(&mesh, QuadratureKind::Dunavant3, &mut out[1..]),
///     Err(Refusal::Output)
/// );
/// # Ok::<(), screens::Refusal>(())
/// ```
pub fn triangle_mesh_inductance_matrix(
    mesh: &TriangleMeshView<'_>,
    quad_kind: QuadratureKind,
    out: &mut [f64],
) -> Result<(), Refusal> {
    let ((x, y, z), (t0, t1, t2)) = (mesh.nodes(), mesh.triangles());
    done(ffi::mesh_inductance_matrix(
        quad_kind.number(),
        x,
        y,
        z,
        t0,
        t1,
        t2,
        out,
    ))
}

/// Moves a node to a place (m): writes its coordinates, and makes every cell of the matrix whose row or column belongs to a node
/// of the moved node's panels the moved mesh's own. If the matrix was the mesh's, it then is the moved mesh's, bit for bit.
/// Yields the count of those cells.
///
/// All other cells keep their numbers, whatever these are; a symmetric matrix stays symmetric in every bit.
///
/// Refused with 1, 2, 11, 3 or 4 for the mesh, 6 for a matrix of other than n × n cells, 13 for a node that is not below n, and 4
/// if a panel of the moved mesh has no area. Columns and matrix are then as they were.
///
/// A place that is not finite is taken, as the original would take such a node: the matrix then holds NaN.
pub fn move_node(
    nodes: (&mut [f64], &mut [f64], &mut [f64]),
    triangles: (&[usize], &[usize], &[usize]),
    quad_kind: QuadratureKind,
    matrix: &mut [f64],
    node: usize,
    place: [f64; 3],
) -> Result<usize, Refusal> {
    let ((x, y, z), (t0, t1, t2)) = (nodes, triangles);
    let (rule, [px, py, pz]) = (quad_kind.number(), place);
    valued(|count| ffi::move_node(rule, x, y, z, t0, t1, t2, matrix, node, px, py, pz, count))
}

/// The answer of a call whose only refusal is for the number of a rule, which a `QuadratureKind` always is.
fn chosen<T>(answer: Result<T, Refusal>) -> T {
    answer.expect("a rule from 1 to 5")
}
