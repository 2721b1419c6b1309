//! Outside the scope; only the names exist.
pub fn triangle_mesh_vector_potential_from_potential_vectors() {}
pub fn triangle_vector_potential_basis() {}
pub fn vector_potential_triangle() {}
pub fn vector_potential_triangle_mesh() {}
pub fn vector_potential_triangle_mesh_mapping() {}
pub fn vector_potential_triangle_mesh_mapping_par() {}
pub fn vector_potential_triangle_mesh_par() {}
