//! Current densities of panels, and quadrature points.
use super::QuadratureKind;
use crate::Refusal;
use crate::ffi;
use crate::mesh::TriangleMeshView;
use crate::refusal::{done, filled, rows};

/// The current densities (1/m) on a panel of a unit value at each of its corners.
pub fn triangle_basis_current_densities(n0: [f64; 3], n1: [f64; 3], n2: [f64; 3]) -> [[f64; 3]; 3] {
    rows(filled(|out| ffi::basis_current_densities([n0, n1, n2], out)))
}

/// The current density (A/m) on a panel of the values `s` (A) at its corners.
///
/// ```
/// use screens::physics::boundary_element::triangle_current_density;
///
/// let j = triangle_current_density([0.0, 0.0, 0.0], [1.0, 0.0, 0.0], [0.0, 1.0, 0.0], [1.0, 2.0, 4.0]);
/// assert_eq!(j, [-3.0, 1.0, 0.0]);
/// ```
pub fn triangle_current_density(n0: [f64; 3], n1: [f64; 3], n2: [f64; 3], s: [f64; 3]) -> [f64; 3] {
    filled(|out| ffi::current_density([n0, n1, n2], s, out))
}

/// Writes the current density (A/m) of each panel, for nodal values `s` (A), to columns of one number a panel. Refused with 5 or 6.
pub fn triangle_mesh_current_density(
    mesh: &TriangleMeshView<'_>,
    s: &[f64],
    out: (&mut [f64], &mut [f64], &mut [f64]),
) -> Result<(), Refusal> {
    let ((x, y, z), (t0, t1, t2)) = (mesh.nodes(), mesh.triangles());
    done(ffi::mesh_current_density(x, y, z, t0, t1, t2, s, out.0, out.1, out.2))
}

/// Writes the quadrature points (m) of each panel, panel after panel, and their area weights (m²). Each column has as many
/// places as there are panels times points of the rule; any other length is refused with 6.
///
/// ```
/// use screens::{QuadratureKind, TriangleMeshView, triangle_mesh_quadrature_points};
///
/// let (x, y, z) = ([0.0, 1.0, 0.0], [0.0, 0.0, 1.0], [0.0; 3]);
/// let mesh = TriangleMeshView::new((&x, &y, &z), (&[0], &[1], &[2]))?;
/// let [mut px, mut py, mut pz, mut weights] = [[0.0; 1]; 4];
/// triangle_mesh_quadrature_points(&mesh, QuadratureKind::Dunavant1, (&mut px, &mut py, &mut pz), &mut weights)?;
/// assert_eq!(weights, [0.5]);
/// # Ok::<(), screens::Refusal>(())
/// ```
pub fn triangle_mesh_quadrature_points(
    mesh: &TriangleMeshView<'_>,
    quad_kind: QuadratureKind,
    out: (&mut [f64], &mut [f64], &mut [f64]),
    weights: &mut [f64],
) -> Result<(), Refusal> {
    let ((x, y, z), (t0, t1, t2)) = (mesh.nodes(), mesh.triangles());
    let rule = quad_kind.number();
    done(ffi::mesh_quadrature_points(
        rule, x, y, z, t0, t1, t2, out.0, out.1, out.2, weights,
    ))
}
