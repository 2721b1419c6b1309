//! A store of named shapes that owns its parts.
use super::owned::TriangleMesh;
use crate::Refusal;
use crate::physics::boundary_element::{drop_shape, save_shape};

/// A store for eight named shapes of one mesh: of each a mark, an eight-byte name and all node coordinates (m).
///
/// A place is free if its mark is 0 and held otherwise. The name of a free place means nothing; where two held places have one
/// name, the first counts.
///
/// ```
/// use screens::{QuadratureKind, Shapes, TriangleMesh, shape_name, triangle_mesh_inductance_matrix};
///
/// let nodes = (vec![0.0, 1.0, 0.0, 1.0], vec![0.0, 0.0, 1.0, 1.0], vec![0.0; 4]);
/// let mut mesh = TriangleMesh::new(nodes, (vec![0, 1], vec![1, 3], vec![2, 2]))?;
/// let rule = QuadratureKind::Dunavant3;
/// let mut matrix = vec![0.0; 16];
/// triangle_mesh_inductance_matrix(&mesh.view(), rule, &mut matrix)?;
///
/// let mut shapes = Shapes::new(4);
/// let as_cast = shape_name("as cast").unwrap();
/// shapes.save(&mesh, &as_cast)?;
/// let (mesh_as_cast, matrix_as_cast) = (mesh.clone(), matrix.clone());
///
/// mesh.move_node(rule, &mut matrix, 3, [1.1, 1.0, 0.2])?;
/// shapes.save(&mesh, b"bent    ")?;
/// let names: Vec<_> = shapes.names().collect();
/// assert_eq!(names, [(0, 1, *b"as cast\0"), (1, 1, *b"bent    ")]);
///
/// assert_eq!(mesh.return_to(&shapes, &as_cast, rule, &mut matrix)?, 15);
/// assert_eq!((mesh, matrix), (mesh_as_cast, matrix_as_cast));
/// # Ok::<(), screens::Refusal>(())
/// ```
///
/// `==` compares coordinates as f64 does: a store with a NaN equals none, itself neither.
#[derive(Clone, Debug, PartialEq)]
pub struct Shapes {
    marks: [u8; 8],
    names: [u8; 64],
    x: Vec<f64>,
    y: Vec<f64>,
    z: Vec<f64>,
}

impl Shapes {
    /// A store of free places for a mesh of so many nodes.
    ///
    /// # Panics
    /// If there is no room for 24 numbers a node.
    pub fn new(nodes: usize) -> Self {
        let column = vec![0.0; nodes.saturating_mul(8)];
        Self::from_parts([0; 8], [0; 64], (column.clone(), column.clone(), column))
    }

    /// A store of given parts: marks, eight bytes of name a place, and the columns x, y and z, place after place. Columns of any
    /// length are taken; a call with a mesh to which they do not belong is refused with 6.
    pub fn from_parts(marks: [u8; 8], names: [u8; 64], (x, y, z): (Vec<f64>, Vec<f64>, Vec<f64>)) -> Self {
        Self { marks, names, x, y, z }
    }

    /// The mark of each place.
    pub fn marks(&self) -> &[u8; 8] {
        &self.marks
    }

    /// The bytes of the names, eight a place, those of free places too.
    pub fn name_bytes(&self) -> &[u8; 64] {
        &self.names
    }

    /// The columns x, y and z, place after place.
    pub fn columns(&self) -> (&[f64], &[f64], &[f64]) {
        (&self.x, &self.y, &self.z)
    }

    /// The held places in order: the place, its mark and its name.
    pub fn names(&self) -> impl Iterator<Item = (usize, u8, [u8; 8])> + '_ {
        let (names, _) = self.names.as_chunks();
        let places = self.marks.iter().zip(names).enumerate();
        places.filter_map(|(place, (&mark, &name))| (mark != 0).then_some((place, mark, name)))
    }

    /// Saves the mesh's coordinates under a name, as [`save_shape`].
    ///
    /// # Errors
    ///
    /// Refused with 6 for a mesh of another node count, and 18 if the name is new and all eight places are held. The store is
    /// then as it was.
    pub fn save(&mut self, mesh: &TriangleMesh, name: &[u8; 8]) -> Result<(), Refusal> {
        let view = mesh.view();
        let columns = (&mut self.x[..], &mut self.y[..], &mut self.z[..]);
        save_shape(
            view.nodes(),
            view.triangles(),
            &mut self.marks,
            &mut self.names,
            columns,
            name,
        )
    }

    /// Drops the shape of a name, as [`drop_shape`]: its place is free.
    ///
    /// # Errors
    ///
    /// Refused with 6 for a mesh of another node count, and 17 if no held place has the name. The store is then as it was.
    pub fn forget(&mut self, mesh: &TriangleMesh, name: &[u8; 8]) -> Result<(), Refusal> {
        let view = mesh.view();
        let columns = (&self.x[..], &self.y[..], &self.z[..]);
        drop_shape(
            view.nodes(),
            view.triangles(),
            &mut self.marks,
            &self.names,
            columns,
            name,
        )
    }
}

/// A shape's name from a text of at most eight bytes, filled with zero bytes; none if it is longer.
///
/// ```
/// use screens::shape_name;
///
/// assert_eq!(shape_name("as cast"), Some(*b"as cast\0"));
/// assert_eq!(shape_name("as drawn"), Some(*b"as drawn"));
/// assert_eq!(shape_name("as welded"), None);
/// ```
pub fn shape_name(text: impl AsRef<[u8]>) -> Option<[u8; 8]> {
    let text = text.as_ref();
    let mut name = [0; 8];
    name.get_mut(..text.len())?.copy_from_slice(text);
    Some(name)
}
