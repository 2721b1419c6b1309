//! A tested mesh of lent columns.
use crate::Refusal;
use crate::ffi;
use crate::refusal::valued;

/// Three lent columns.
type Columns<'a, T> = (&'a [T], &'a [T], &'a [T]);

/// A mesh that has been tested: the coordinates x, y and z of the nodes, and for each panel the nodes of its corners.
///
/// ```
/// use screens::TriangleMeshView;
///
/// // two panels that share an edge
/// let (x, y, z) = ([0.0, 1.0, 0.0, 1.0], [0.0, 0.0, 1.0, 1.0], [0.0; 4]);
/// let mesh = TriangleMeshView::new((&x, &y, &z), (&[0, 1], &[1, 3], &[2, 2]))?;
/// assert_eq!((mesh.nnode(), mesh.len(), mesh.poor_panels()), (4, 2, 0));
/// assert_eq!(mesh.triangle_indices(1), [1, 3, 2]);
/// # Ok::<(), screens::Refusal>(())
/// ```
#[derive(Clone, Copy, Debug)]
pub struct TriangleMeshView<'a> {
    nodes: Columns<'a, f64>,
    triangles: Columns<'a, usize>,
    poor: usize,
}

impl<'a> TriangleMeshView<'a> {
    /// Tests the mesh. Refused with 1, 2, 11, 3 or 4, the first that applies; 3 is looked for over all panels before 4.
    pub fn new(nodes: Columns<'a, f64>, triangles: Columns<'a, usize>) -> Result<Self, Refusal> {
        let poor =
            valued(|poor| ffi::mesh_test(nodes.0, nodes.1, nodes.2, triangles.0, triangles.1, triangles.2, poor))?;
        Ok(Self { nodes, triangles, poor })
    }

    /// A view of a mesh that was tested before.
    pub(super) fn tested(nodes: Columns<'a, f64>, triangles: Columns<'a, usize>, poor: usize) -> Self {
        Self { nodes, triangles, poor }
    }

    /// The columns x, y and z.
    pub fn nodes(&self) -> Columns<'a, f64> {
        self.nodes
    }

    /// The three index columns.
    pub fn triangles(&self) -> Columns<'a, usize> {
        self.triangles
    }

    /// How many nodes there are.
    pub fn nnode(&self) -> usize {
        self.nodes.0.len()
    }

    /// How many panels there are.
    pub fn len(&self) -> usize {
        self.triangles.0.len()
    }

    /// Whether there is no panel.
    pub fn is_empty(&self) -> bool {
        self.len() == 0
    }

    /// How many panels have a quality below 1e-3. The original warns about them; they are accepted.
    pub fn poor_panels(&self) -> usize {
        self.poor
    }

    /// The coordinates of a node.
    ///
    /// # Panics
    /// If there is no such node.
    pub fn node(&self, i: usize) -> [f64; 3] {
        [self.nodes.0[i], self.nodes.1[i], self.nodes.2[i]]
    }

    /// The nodes of a panel's corners.
    ///
    /// # Panics
    /// If there is no such panel.
    pub fn triangle_indices(&self, i: usize) -> [usize; 3] {
        [self.triangles.0[i], self.triangles.1[i], self.triangles.2[i]]
    }

    /// A panel's corners.
    ///
    /// # Panics
    /// If there is no such panel.
    pub fn triangle_nodes(&self, i: usize) -> [[f64; 3]; 3] {
        self.triangle_indices(i).map(|k| self.node(k))
    }

    /// A panel's corners and their nodes.
    ///
    /// # Panics
    /// If there is no such panel.
    pub fn triangle_nodes_and_indices(&self, i: usize) -> ([[f64; 3]; 3], [usize; 3]) {
        (self.triangle_nodes(i), self.triangle_indices(i))
    }

    /// Whether there is one nodal value a node; otherwise refused with 5.
    pub fn validate_nodal_values(&self, s: &[f64]) -> Result<(), Refusal> {
        if s.len() == self.nnode() {
            Ok(())
        } else {
            Err(Refusal::NodalValues)
        }
    }

    /// The nodal values at a panel's corners.
    ///
    /// # Panics
    /// If there is no such panel, or no value for one of its nodes.
    pub fn triangle_scalars(&self, i: usize, s: &[f64]) -> [f64; 3] {
        self.triangle_indices(i).map(|k| s[k])
    }
}
