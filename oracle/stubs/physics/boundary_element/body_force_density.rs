//! Outside the scope; only the names exist.
pub fn triangle_basis_force_block() {}
pub fn triangle_force_from_potential_vectors() {}
pub fn triangle_mesh_force_from_potential_vectors() {}
pub fn triangle_mesh_force_mapping() {}
pub fn triangle_mesh_force_mapping_from_circular_filaments() {}
pub fn triangle_mesh_force_mapping_from_circular_filaments_par() {}
pub fn triangle_mesh_force_mapping_from_dipoles() {}
pub fn triangle_mesh_force_mapping_from_dipoles_par() {}
pub fn triangle_mesh_force_mapping_from_linear_filaments() {}
pub fn triangle_mesh_force_mapping_from_linear_filaments_par() {}
pub fn triangle_mesh_force_mapping_par() {}
pub fn triangle_mesh_self_force_mapping() {}
pub fn triangle_mesh_self_force_mapping_par() {}
pub fn triangle_mesh_triangle_forces_from_potential_vectors() {}
