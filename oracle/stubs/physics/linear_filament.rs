//! Outside the scope; only the names exist.
type P = (f64, f64, f64);
pub fn vector_potential_linear_filament_scalar(_s: (P, P, f64), _r: f64, _o: P) -> P {
    (0.0, 0.0, 0.0)
}
