//! Outside the scope; only the names exist.
type P = (f64, f64, f64);
pub fn vector_potential_dipole_scalar(_l: P, _m: P, _r: f64, _o: P) -> P {
    (0.0, 0.0, 0.0)
}
