/// Appended by build.sh: functions that are private to this file.
pub mod probe {
    type Triangle = [[f64; 3]; 3];
    pub fn panel_distance_squared(a: Triangle, b: Triangle) -> f64 {
        super::triangle_distance_squared(a, b)
    }
    pub fn box_distance_squared(a: Triangle, b: Triangle) -> f64 {
        super::triangle_aabb_distance_squared(a, b)
    }
    pub fn max_edge_squared(a: Triangle) -> f64 {
        super::triangle_max_edge_squared(a)
    }
    pub fn segment_distance_squared(p0: [f64; 3], p1: [f64; 3], q0: [f64; 3], q1: [f64; 3]) -> f64 {
        super::segment_distance_squared(p0, p1, q0, q1)
    }
    pub fn point_distance_squared(p: [f64; 3], t: Triangle) -> f64 {
        super::point_triangle_distance_squared(p, t)
    }
    pub fn far_symmetric(a: Triangle, b: Triangle, k: super::QuadratureKind) -> f64 {
        super::triangle_geometric_coupling_regular_symmetric(a, b, k)
    }
    /// 0 identical, 1 far by the boxes, 2 far by the panels, 3 near.
    pub fn class(a: Triangle, b: Triangle) -> u64 {
        if super::triangles_identical(a[0], a[1], a[2], b[0], b[1], b[2]) {
            return 0;
        }
        let limit = super::triangle_max_edge_squared(a).max(super::triangle_max_edge_squared(b));
        if super::triangle_aabb_distance_squared(a, b) > limit {
            1
        } else if super::triangle_distance_squared(a, b) > limit {
            2
        } else {
            3
        }
    }
}
