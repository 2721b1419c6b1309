//! A mesh as a case has it: any six columns, tested or not.
use crate::Triangle;

/// Six columns: coordinates of the nodes, and the nodes of each panel.
#[derive(Clone, Debug, Default)]
pub struct Mesh {
    /// The nodes' x.
    pub x: Vec<f64>,
    /// Their y.
    pub y: Vec<f64>,
    /// Their z.
    pub z: Vec<f64>,
    /// The panels' first corners.
    pub a: Vec<usize>,
    /// Their second corners.
    pub b: Vec<usize>,
    /// Their third corners.
    pub c: Vec<usize>,
}

impl Mesh {
    /// How many nodes there are.
    pub fn nodes(&self) -> usize {
        self.x.len()
    }
    /// How many panels there are.
    pub fn panels(&self) -> usize {
        self.a.len()
    }
    /// A node's coordinates.
    pub fn node(&self, i: usize) -> [f64; 3] {
        [self.x[i], self.y[i], self.z[i]]
    }
    /// A panel's nodes.
    pub fn indices(&self, panel: usize) -> [usize; 3] {
        [self.a[panel], self.b[panel], self.c[panel]]
    }
    /// A panel's corners.
    pub fn triangle(&self, panel: usize) -> Triangle {
        self.indices(panel).map(|k| self.node(k))
    }
    /// Appends a node.
    pub fn add_node(&mut self, p: [f64; 3]) {
        self.x.push(p[0]);
        self.y.push(p[1]);
        self.z.push(p[2]);
    }
    /// Appends a panel.
    pub fn add_panel(&mut self, p: [usize; 3]) {
        self.a.push(p[0]);
        self.b.push(p[1]);
        self.c.push(p[2]);
    }
    /// The mesh of one panel.
    pub fn of_panel(t: Triangle) -> Mesh {
        let mut mesh = Mesh::default();
        for corner in t {
            mesh.add_node(corner);
        }
        mesh.add_panel([0, 1, 2]);
        mesh
    }
}
