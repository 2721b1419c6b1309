//! The crate's calls have the original's paths, parameters and results; only the error is another type.
#![allow(clippy::type_complexity)]
use screens::math;
use screens::mesh::TriangleMeshView;
use screens::mesh::elements::tri::{mapping, quadrature, tri3};
use screens::physics::boundary_element::*;
use screens::{Refusal, Shapes, TriangleMesh};

type V = [f64; 3];
type Columns<'a, T> = (&'a [T], &'a [T], &'a [T]);
type Outputs<'a> = (&'a mut [f64], &'a mut [f64], &'a mut [f64]);
type Done = Result<(), Refusal>;
type Value = Result<f64, Refusal>;
type Pair<T> = fn(V, V, V, V, V, V, QuadratureKind) -> T;

#[test]
fn signatures_are_the_originals() {
    let _: fn(V, V) -> f64 = math::dot3;
    let _: fn(V) -> f64 = math::norm3;
    let _: fn(V) -> V = math::normalize3;
    let _: [fn(V, V) -> V; 3] = [math::cross3, math::sub3, math::add3];
    let _: fn(V, f64) -> V = math::scale3;
    let _: fn(V, V, f64) -> V = math::add_scaled3;

    let _: fn(V, V, V, [f64; 2]) -> V = mapping::map_point;
    let _: fn(V, V, V) -> f64 = mapping::area;
    let _: fn(V, V, V) -> V = mapping::normal;
    let _: fn(V, V, V, V) -> V = tri3::closest_point;
    let _: fn(quadrature::QuadratureKind) -> usize = quadrature::triangle_quadrature_count;

    view();

    let _: fn(V, V, V) -> f64 = calc_tri_area;
    let _: fn(V, V, V, [f64; 2]) -> V = map_tri_uv;
    let _: fn(V, V, V) -> V = calc_tri_normal;
    let _: fn(V, V, V) -> [V; 3] = triangle_basis_current_densities;
    let _: fn(V, V, V, V) -> V = triangle_current_density;
    let _: fn(&TriangleMeshView<'_>, &[f64], Outputs<'_>) -> Done = triangle_mesh_current_density;
    let _: fn(&TriangleMeshView<'_>, QuadratureKind, Outputs<'_>, &mut [f64]) -> Done = triangle_mesh_quadrature_points;
    let _: [Pair<f64>; 2] = [triangle_geometric_coupling, triangle_geometric_coupling_regular];
    let _: Pair<[V; 3]> = triangle_basis_mutual_inductance_block;
    // the original's is f64 and stops the program at a corner above 2
    let _: fn(V, V, V, usize, V, V, V, usize, QuadratureKind) -> Value = triangle_basis_mutual_inductance;
    let _: fn([V; 3], V, V) -> f64 = triangle_inductance_from_potential_vectors;
    let _: fn(&TriangleMeshView<'_>, QuadratureKind, &mut [f64]) -> Done = triangle_mesh_inductance_matrix;
    let _: fn(&[f64], &[f64], &[f64]) -> Value = triangle_mesh_inductance_from_potential_vectors;
    let _: fn(&[f64], &[f64]) -> Value = triangle_mesh_inductive_energy;
    let _: fn(&[f64], &[f64], &mut [f64]) -> Done = triangle_mesh_flux_linkage_from_source_coefficients;
    let _: fn(&[f64], &[f64], &[f64]) -> Value = triangle_mesh_interaction_energy_from_source_coefficients;
}

/// What the original has not.
#[test]
fn signatures_of_named_shapes() {
    type Name = [u8; 8];
    type Panels<'a> = Columns<'a, usize>;
    let _: fn(Columns<'_, f64>, Panels<'_>, &mut [u8], &mut [u8], Outputs<'_>, &Name) -> Done = save_shape;
    let _: fn(Columns<'_, f64>, Panels<'_>, &mut [u8], &[u8], Columns<'_, f64>, &Name) -> Done = drop_shape;
    let _: fn(
        Outputs<'_>,
        Panels<'_>,
        QuadratureKind,
        &mut [f64],
        &[u8],
        &[u8],
        Columns<'_, f64>,
        &Name,
    ) -> Result<usize, Refusal> = return_shape;
    let _: fn(usize) -> Shapes = Shapes::new;
    let _: fn([u8; 8], [u8; 64], (Vec<f64>, Vec<f64>, Vec<f64>)) -> Shapes = Shapes::from_parts;
    let _: [fn(&mut Shapes, &TriangleMesh, &Name) -> Done; 2] = [Shapes::save, Shapes::forget];
    let _: fn(&mut TriangleMesh, &Shapes, &Name, QuadratureKind, &mut [f64]) -> Result<usize, Refusal> =
        TriangleMesh::return_to;
}

/// The view of columns that live for any one lifetime.
fn view() {
    type View = TriangleMeshView<'static>;
    let _: fn(Columns<'static, f64>, Columns<'static, usize>) -> Result<View, Refusal> = View::new;
    let _: [fn(&View) -> usize; 2] = [View::nnode, View::len];
    let _: fn(&View) -> bool = View::is_empty;
    let _: fn(&View, usize) -> [usize; 3] = View::triangle_indices;
    let _: fn(&View, usize) -> [V; 3] = View::triangle_nodes;
    let _: fn(&View, usize) -> ([V; 3], [usize; 3]) = View::triangle_nodes_and_indices;
    let _: fn(&View, &[f64]) -> Done = View::validate_nodal_values;
    let _: fn(&View, usize, &[f64]) -> V = View::triangle_scalars;
}
