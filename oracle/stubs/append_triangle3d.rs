/// Appended by build.sh: functions that are private to this file.
pub mod probe {
    pub fn area(t: [[f64; 3]; 3]) -> f64 {
        super::triangle_area_from_nodes(t)
    }
    pub fn quality(t: [[f64; 3]; 3]) -> f64 {
        super::triangle_quality_from_nodes(t)
    }
}
