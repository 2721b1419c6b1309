//! Outside the scope; only the names exist.
pub fn vector_potential_circular_filament_scalar(_s: (f64, f64, f64), _o: (f64, f64)) -> f64 {
    0.0
}
