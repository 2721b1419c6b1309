//! What is done with a given matrix or map: energies, flux linkage, rows, display.
use crate::Refusal;
use crate::ffi;
use crate::refusal::{done, valued};

/// The sum of source values × matrix × target values (H A²). Refused with 5, 11 or 7.
pub fn triangle_mesh_inductance_from_potential_vectors(
    lmat: &[f64],
    s_src: &[f64],
    s_tgt: &[f64],
) -> Result<f64, Refusal> {
    valued(|value| ffi::mesh_inductance_from_potentials(lmat, s_src, s_tgt, value))
}

/// The energy (J) of the nodal values `s`: half of their sum over the matrix. Refused with 11 or 7.
///
/// ```
/// use screens::triangle_mesh_inductive_energy;
///
/// assert_eq!(triangle_mesh_inductive_energy(&[1.0, 0.0, 0.0, 1.0], &[3.0, 4.0]), Ok(12.5));
/// ```
pub fn triangle_mesh_inductive_energy(lmat: &[f64], s: &[f64]) -> Result<f64, Refusal> {
    valued(|value| ffi::mesh_inductive_energy(lmat, s, value))
}

/// Writes the flux linkage of each node for the coefficients of the sources. The map has a row a node. Refused with 8, 9 or 10.
///
/// ```
/// use screens::triangle_mesh_flux_linkage_from_source_coefficients;
///
/// let mut flux = [0.0; 2];
/// triangle_mesh_flux_linkage_from_source_coefficients(&[1.0, 2.0, 3.0, 4.0], &[5.0, 6.0], &mut flux)?;
/// assert_eq!(flux, [17.0, 39.0]);
/// # Ok::<(), screens::Refusal>(())
/// ```
pub fn triangle_mesh_flux_linkage_from_source_coefficients(
    map: &[f64],
    coeffs_src: &[f64],
    out: &mut [f64],
) -> Result<(), Refusal> {
    done(ffi::mesh_flux_linkage(map, coeffs_src, out))
}

/// The interaction energy of nodal values and source coefficients. Refused with 8, 9 or 10.
pub fn triangle_mesh_interaction_energy_from_source_coefficients(
    map: &[f64],
    s_tgt: &[f64],
    coeffs_src: &[f64],
) -> Result<f64, Refusal> {
    valued(|value| ffi::mesh_interaction_energy(map, s_tgt, coeffs_src, value))
}

/// The row of a node in the matrix of n nodes, as that stretch of the caller's own numbers. Refused with 11, 7 or 13.
///
/// ```
/// use screens::{Refusal, triangle_mesh_matrix_row};
///
/// let matrix = [1.0, 2.0, 3.0, 4.0];
/// assert_eq!(triangle_mesh_matrix_row(&matrix, 2, 1), Ok(&matrix[2..]));
/// assert_eq!(triangle_mesh_matrix_row(&matrix, 2, 2), Err(Refusal::NoSuchNode));
/// ```
pub fn triangle_mesh_matrix_row(matrix: &[f64], n: usize, node: usize) -> Result<&[f64], Refusal> {
    row(matrix, |offset, length| {
        ffi::matrix_row(matrix, n, node, offset, length)
    })
}

/// The row of a node in a map of so many sources, in the same way. Refused with 8, 9 or 13.
pub fn triangle_mesh_map_row(map: &[f64], sources: usize, node: usize) -> Result<&[f64], Refusal> {
    row(map, |offset, length| ffi::map_row(map, sources, node, offset, length))
}

/// The stretch that a call names by its offset and length.
fn row(numbers: &[f64], call: impl FnOnce(&mut usize, &mut usize) -> u32) -> Result<&[f64], Refusal> {
    let mut length = 0;
    let offset = valued(|offset| call(offset, &mut length))?;
    Ok(&numbers[offset..offset + length])
}

/// The display value of an inductance (H): whole nanohenries, rounded once, a half to the even one. Refused with 16.
///
/// ```
/// assert_eq!(screens::display(1.0 / 1024.0), Ok(976_562));
/// assert_eq!(screens::display(3.0 / 1024.0), Ok(2_929_688));
/// ```
pub fn display(henries: f64) -> Result<i64, Refusal> {
    valued(|value| ffi::display(henries, value))
}
