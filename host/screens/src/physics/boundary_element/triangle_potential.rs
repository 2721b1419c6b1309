//! The potential of a uniformly loaded panel.
use crate::ffi;
use crate::refusal::{filled, rows};

/// A panel worked out once: corners, normal, edges.
///
/// ```
/// use screens::UniformTriangle;
///
/// let panel = UniformTriangle::new([0.0, 0.0, 0.0], [3.0, 0.0, 0.0], [0.0, 4.0, 0.0]);
/// assert_eq!((panel.normal, panel.edge_length, panel.max_edge), ([0.0, 0.0, 1.0], [3.0, 5.0, 4.0], 5.0));
/// assert!(panel.contains_on_surface([1.0, 1.0, 0.0]) && !panel.contains_on_surface([1.0, 1.0, 0.1]));
/// assert!(panel.scalar_potential([1.0, 1.0, 1.0]) > panel.scalar_potential([1.0, 1.0, 2.0]));
/// assert!(panel.scalar_potential_gradient([1.0, 1.0, 1.0])[2] < 0.0);
/// ```
#[derive(Clone, Copy, Debug, PartialEq)]
#[non_exhaustive]
pub struct UniformTriangle {
    /// The corners (m).
    pub nodes: [[f64; 3]; 3],
    /// The unit normal.
    pub normal: [f64; 3],
    /// The direction of each edge.
    pub edge_tangent: [[f64; 3]; 3],
    /// The direction outward from each edge, in the panel's plane.
    pub edge_outward: [[f64; 3]; 3],
    /// The length of each edge (m).
    pub edge_length: [f64; 3],
    /// The longest of them (m).
    pub max_edge: f64,
}

impl UniformTriangle {
    /// Works the panel out.
    pub fn new(n0: [f64; 3], n1: [f64; 3], n2: [f64; 3]) -> Self {
        let record = filled(|out| ffi::record([n0, n1, n2], out));
        let three = |from: usize| std::array::from_fn(|i| record[from + i]);
        let nine = |from: usize| rows(std::array::from_fn(|i| record[from + i]));
        UniformTriangle {
            nodes: nine(0),
            normal: three(9),
            edge_tangent: nine(12),
            edge_outward: nine(21),
            edge_length: three(30),
            max_edge: record[33],
        }
    }

    /// The corners (m).
    pub fn nodes(&self) -> [[f64; 3]; 3] {
        self.nodes
    }

    /// The potential (m) at a point.
    pub fn scalar_potential(&self, obs: [f64; 3]) -> f64 {
        ffi::potential(self.nodes, obs)
    }

    /// The gradient of the potential at a point.
    pub fn scalar_potential_gradient(&self, obs: [f64; 3]) -> [f64; 3] {
        filled(|out| ffi::gradient(self.nodes, obs, out))
    }

    /// Whether a point lies on the panel, within the original's tolerance.
    pub fn contains_on_surface(&self, obs: [f64; 3]) -> bool {
        ffi::contact(self.nodes, obs)
    }
}
