//! Only the map builders (outside the scope) call these.
pub fn atan2(y: f64, x: f64) -> f64 {
    y.atan2(x)
}
pub fn sin(x: f64) -> f64 {
    x.sin()
}
pub fn cos(x: f64) -> f64 {
    x.cos()
}
