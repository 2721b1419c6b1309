//! A mesh that owns its columns.
use super::panel_file::{panel_file_counts, panel_file_length, read_panel_file, write_panel_file};
use super::shapes::Shapes;
use super::view::TriangleMeshView;
use crate::Refusal;
use crate::physics::boundary_element::{QuadratureKind, move_node, return_shape};

/// A tested mesh that owns its columns: what is read from a panel file, moved and written again.
///
/// ```
/// use screens::{QuadratureKind, TriangleMesh, triangle_mesh_inductance_matrix};
///
/// let nodes = (vec![0.0, 1.0, 0.0, 1.0], vec![0.0, 0.0, 1.0, 1.0], vec![0.0; 4]);
/// let mut mesh = TriangleMesh::new(nodes, (vec![0, 1], vec![1, 3], vec![2, 2]))?;
/// let mut matrix = vec![0.0; 16];
/// triangle_mesh_inductance_matrix(&mesh.view(), QuadratureKind::Dunavant3, &mut matrix)?;
///
/// // the cells of the rows and columns of node 3's ring are renewed
/// let count = mesh.move_node(QuadratureKind::Dunavant3, &mut matrix, 3, [1.1, 1.0, 0.2])?;
/// assert_eq!(count, 15);
/// let mut fresh = vec![0.0; 16];
/// triangle_mesh_inductance_matrix(&mesh.view(), QuadratureKind::Dunavant3, &mut fresh)?;
/// assert_eq!(matrix, fresh);
///
/// assert_eq!(TriangleMesh::from_panel_file(&mesh.to_panel_file())?, mesh);
/// # Ok::<(), screens::Refusal>(())
/// ```
#[derive(Clone, Debug, PartialEq)]
pub struct TriangleMesh {
    x: Vec<f64>,
    y: Vec<f64>,
    z: Vec<f64>,
    t0: Vec<usize>,
    t1: Vec<usize>,
    t2: Vec<usize>,
    poor: usize,
}

impl TriangleMesh {
    /// Tests the columns and keeps them; refused as [`TriangleMeshView::new`].
    pub fn new(
        nodes: (Vec<f64>, Vec<f64>, Vec<f64>),
        triangles: (Vec<usize>, Vec<usize>, Vec<usize>),
    ) -> Result<Self, Refusal> {
        let (x, y, z) = nodes;
        let (t0, t1, t2) = triangles;
        let mut mesh = Self {
            x,
            y,
            z,
            t0,
            t1,
            t2,
            poor: 0,
        };
        mesh.test()?;
        Ok(mesh)
    }

    /// Reads a panel file. Refused with 14, 11, 15, 3 or 4.
    pub fn from_panel_file(file: &[u8]) -> Result<Self, Refusal> {
        // A file too short for counts is refused whatever the columns.
        let (nodes, panels) = panel_file_counts(file).unwrap_or((0, 0));
        let numbers = || vec![0.0; nodes];
        let indices = || vec![0; panels];
        let mut mesh = Self {
            x: numbers(),
            y: numbers(),
            z: numbers(),
            t0: indices(),
            t1: indices(),
            t2: indices(),
            poor: 0,
        };
        read_panel_file(
            file,
            (&mut mesh.x, &mut mesh.y, &mut mesh.z),
            (&mut mesh.t0, &mut mesh.t1, &mut mesh.t2),
        )?;
        mesh.test()?;
        Ok(mesh)
    }

    /// The panel file of the mesh, by [`write_panel_file`]. [`TriangleMesh::from_panel_file`] reads each number back bit for bit,
    /// NaN counting as one. `==` compares as f64 does: a mesh with a NaN equals none, itself neither.
    pub fn to_panel_file(&self) -> Vec<u8> {
        let mut file = vec![0; panel_file_length(self.x.len(), self.t0.len())];
        write_panel_file(&self.view(), &mut file).expect("the mesh was tested");
        file
    }

    /// The mesh as the calls take it.
    pub fn view(&self) -> TriangleMeshView<'_> {
        TriangleMeshView::tested((&self.x, &self.y, &self.z), (&self.t0, &self.t1, &self.t2), self.poor)
    }

    /// Moves a node and renews the matrix, as [`move_node`].
    pub fn move_node(
        &mut self,
        quad_kind: QuadratureKind,
        matrix: &mut [f64],
        node: usize,
        place: [f64; 3],
    ) -> Result<usize, Refusal> {
        let count = move_node(
            (&mut self.x, &mut self.y, &mut self.z),
            (&self.t0, &self.t1, &self.t2),
            quad_kind,
            matrix,
            node,
            place,
        )?;
        self.test()?;
        Ok(count)
    }

    /// Returns to a named shape of a store and renews the matrix, as [`return_shape`].
    ///
    /// # Errors
    ///
    /// Refused with 6 for a store of another node count or a matrix of other than n × n cells, 17 if no held place has the name,
    /// and 4 if a panel of the named shape has no area. Mesh and matrix are then as they were.
    pub fn return_to(
        &mut self,
        shapes: &Shapes,
        name: &[u8; 8],
        quad_kind: QuadratureKind,
        matrix: &mut [f64],
    ) -> Result<usize, Refusal> {
        let count = return_shape(
            (&mut self.x, &mut self.y, &mut self.z),
            (&self.t0, &self.t1, &self.t2),
            quad_kind,
            matrix,
            shapes.marks(),
            shapes.name_bytes(),
            shapes.columns(),
            name,
        )?;
        self.test()?;
        Ok(count)
    }

    /// Tests the mesh and notes the count of poor panels.
    fn test(&mut self) -> Result<(), Refusal> {
        self.poor = TriangleMeshView::new((&self.x, &self.y, &self.z), (&self.t0, &self.t1, &self.t2))?.poor_panels();
        Ok(())
    }
}
