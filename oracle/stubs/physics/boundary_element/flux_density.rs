//! Outside the scope; only the names exist.
pub fn flux_density_triangle_mesh() {}
pub fn flux_density_triangle_mesh_mapping() {}
pub fn flux_density_triangle_mesh_mapping_par() {}
pub fn flux_density_triangle_mesh_par() {}
pub fn triangle_flux_density_basis() {}
pub fn triangle_mesh_flux_density_from_potential_vectors() {}

// The oracle reaches the original from here: a child of boundary_element sees its private items, and mod.rs (unchanged)
// re-exports the name `flux_density_triangle`, which is a module here.
pub use inner as flux_density_triangle;

// Names that probe_inductance.rs (the second copy of inductance.rs) expects in its parent.
use super::QuadratureKind;
use super::{calc_tri_area, map_tri_uv, triangles_identical};
use super::{triangle_basis_current_densities, triangle_quadrature_points};
#[path = "probe_inductance.rs"]
mod probe_inductance;
#[path = "probe_triangle_potential.rs"]
mod triangle_potential;

/// The original's functions that are not public, and, for those private to a file, its second copy.
pub mod inner {
    use super::super as be;
    pub use super::super::QuadratureKind;
    pub type Triangle = [[f64; 3]; 3];

    /// Document 01's quadrature number.
    #[inline]
    pub fn kind(rule: u64) -> Option<QuadratureKind> {
        Some(match rule {
            1 => QuadratureKind::Dunavant1,
            2 => QuadratureKind::Dunavant2,
            3 => QuadratureKind::Dunavant3,
            4 => QuadratureKind::Dunavant4,
            5 => QuadratureKind::Dunavant5,
            _ => return None,
        })
    }
    #[inline]
    pub fn table(kind: QuadratureKind) -> &'static [[f64; 3]] {
        be::triangle_quadrature_points(kind)
    }

    /// The unchanged UniformTriangle.
    pub struct Panel(be::triangle_potential::UniformTriangle<f64>);
    impl Panel {
        #[inline]
        pub fn new(t: Triangle) -> Self {
            Panel(be::triangle_potential::UniformTriangle::new(t[0], t[1], t[2]))
        }
        #[inline]
        pub fn potential(&self, at: [f64; 3]) -> f64 {
            self.0.scalar_potential(at)
        }
        #[inline]
        pub fn gradient(&self, at: [f64; 3]) -> [f64; 3] {
            self.0.scalar_potential_gradient(at)
        }
        #[inline]
        pub fn contact(&self, at: [f64; 3]) -> bool {
            self.0.contains_on_surface(at)
        }
        /// The near rule from this depth down.
        #[inline]
        pub fn near(&self, target: Triangle, depth: usize) -> f64 {
            be::inductance::triangle_geometric_coupling_exact_fixed(&self.0, target, depth)
        }
    }
    #[inline]
    pub fn bisect(t: Triangle) -> [Triangle; 2] {
        be::inductance::longest_edge_bisection(t)
    }
    #[inline]
    pub fn identical(a: Triangle, b: Triangle) -> bool {
        be::triangles_identical(a[0], a[1], a[2], b[0], b[1], b[2])
    }
    #[inline]
    pub fn energy(matrix: &[f64], values: &[f64]) -> Result<f64, &'static str> {
        be::inductance::triangle_mesh_inductive_energy(matrix, values)
    }

    // From the second copies.
    pub use super::probe_inductance::probe::*;
    #[inline]
    pub fn record(t: Triangle) -> Vec<f64> {
        super::triangle_potential::UniformTriangle::new(t[0], t[1], t[2]).parts()
    }
}
