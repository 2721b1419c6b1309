//! Document 01's bench sheet, through the archive.
use screens::*;

const UNIT: [[f64; 3]; 3] = [[0.0, 0.0, 0.0], [1.0, 0.0, 0.0], [0.0, 1.0, 0.0]];

fn raised(z: f64) -> [[f64; 3]; 3] {
    [[0.0, 0.0, z], [3.0, 0.0, z], [0.0, 4.0, z]]
}

fn one_panel(corners: [[f64; 3]; 3]) -> Result<usize, Refusal> {
    let column = |axis: usize| corners.map(|corner| corner[axis]);
    let (x, y, z) = (column(0), column(1), column(2));
    TriangleMeshView::new((&x, &y, &z), (&[0], &[1], &[2])).map(|mesh| mesh.poor_panels())
}

#[test]
fn arithmetic() {
    let step = 2f64.powi(-30);
    assert_eq!(math::mul_add(1.0 + step, 1.0 - step, -1.0), -2f64.powi(-60));
    assert_eq!(math::sqrt(-0.0).to_bits(), (-0.0f64).to_bits());
    assert_eq!(math::sqrt(2.0).to_bits(), 0x3ff6_a09e_667f_3bcd);
}

#[test]
fn areas_at_the_limit() {
    let corners = |y: f64| [[0.0, 0.0, 0.0], [1.0, 0.0, 0.0], [0.0, y, 0.0]];
    assert_eq!(one_panel(corners(2e-14)), Ok(1));
    assert_eq!(one_panel(corners(1.9e-14)), Err(Refusal::ZeroArea));
    let wide = [[-1.7e308, 0.0, 0.0], [1.7e308, 0.0, 0.0], [0.0, 1.0, 0.0]];
    assert_eq!(one_panel(wide), Ok(0), "a NaN area is accepted");
}

#[test]
fn near_and_far() {
    assert!(!is_far(raised(0.0), raised(5.0)));
    assert!(is_far(raised(0.0), raised(5.000000000000001)));
}

#[test]
fn the_longest_edge_is_split() {
    let middle = [0.5, 0.5, 0.0];
    for half in longest_edge_bisection(UNIT) {
        assert_eq!(half.iter().filter(|corner| **corner == middle).count(), 1);
    }
}

#[test]
fn maps_energies_display() {
    let map = [1.0, 2.0, 3.0, 4.0];
    let mut flux = [0.0; 2];
    triangle_mesh_flux_linkage_from_source_coefficients(&map, &[5.0, 6.0], &mut flux).unwrap();
    assert_eq!(flux, [17.0, 39.0]);
    let energy = triangle_mesh_interaction_energy_from_source_coefficients(&map, &[1.0, 1.0], &[5.0, 6.0]);
    assert_eq!(energy, Ok(56.0));
    let refused = triangle_mesh_flux_linkage_from_source_coefficients(&[], &[], &mut flux[..1]);
    assert_eq!(refused, Err(Refusal::Coefficients));
    assert_eq!(
        triangle_mesh_inductive_energy(&[1.0, 0.0, 0.0, 1.0], &[3.0, 4.0]),
        Ok(12.5)
    );
    assert_eq!(display(1.0 / 1024.0), Ok(976_562));
}

#[test]
fn constants() {
    let mu_0 = 0.999_999_999_87 * std::f64::consts::PI * 4e-7;
    assert_eq!(MU_0, mu_0);
    assert_eq!(MU0_OVER_4PI, mu_0 / (4.0 * std::f64::consts::PI));
}
