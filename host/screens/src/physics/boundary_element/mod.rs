//! Boundary elements: densities, potential, coupling, inductance, energies and flux, with the original's names and order of
//! arguments. What the original refuses with a text is a [`Refusal`](crate::Refusal) here.
mod current_density;
mod inductance;
mod linkage;
mod pair;
mod shapes;
mod triangle_potential;

pub use crate::mesh::elements::tri::mapping::{
    area as calc_tri_area, map_point as map_tri_uv, normal as calc_tri_normal,
};
pub use crate::mesh::elements::tri::quadrature::{QuadratureKind, triangle_quadrature_count};
pub use current_density::{
    triangle_basis_current_densities, triangle_current_density, triangle_mesh_current_density,
    triangle_mesh_quadrature_points,
};
pub use inductance::{
    move_node, triangle_basis_mutual_inductance, triangle_basis_mutual_inductance_block, triangle_geometric_coupling,
    triangle_geometric_coupling_regular, triangle_inductance_from_potential_vectors, triangle_mesh_inductance_matrix,
};
pub use linkage::{
    display, triangle_mesh_flux_linkage_from_source_coefficients, triangle_mesh_inductance_from_potential_vectors,
    triangle_mesh_inductive_energy, triangle_mesh_interaction_energy_from_source_coefficients, triangle_mesh_map_row,
    triangle_mesh_matrix_row,
};
pub use pair::{
    is_far, longest_edge_bisection, triangle_aabb_distance_squared, triangle_distance_squared,
    triangle_max_edge_squared, triangles_identical,
};
pub use shapes::{drop_shape, return_shape, save_shape};
pub use triangle_potential::UniformTriangle;
