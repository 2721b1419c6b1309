//! Named shapes of a mesh by the words of change request 5, over the original's mesh test and matrix. A refusal is its number.
use crate::calls::{self, Mesh, Moved};
use crate::canonical;
pub use ::cases::{Name, Store};

pub const PLACES: usize = 8;
pub const NAME: usize = size_of::<Name>();

/// Whether the store has eight places of so many nodes.
pub fn fits(store: &Store, nodes: usize) -> bool {
    let columns = [&store.x, &store.y, &store.z];
    let bytes = store.marks.len() == PLACES && store.names.len() == PLACES * NAME;
    bytes && columns.iter().all(|column| column.len() == PLACES * nodes)
}

pub fn is_held(store: &Store, place: usize) -> bool {
    store.marks[place] != 0
}

/// A place's name, held or not.
pub fn name_at(store: &Store, place: usize) -> &[u8] {
    &store.names[place * NAME..(place + 1) * NAME]
}

/// The first place that holds the name.
pub fn place_of(store: &Store, name: Name) -> Option<usize> {
    (0..PLACES).find(|&place| is_held(store, place) && name_at(store, place) == name)
}

fn free_place(store: &Store) -> Option<usize> {
    (0..PLACES).find(|&place| !is_held(store, place))
}

/// The mesh with the coordinates that a place has.
pub fn shape_at(mesh: &Mesh, store: &Store, place: usize) -> Mesh {
    let n = mesh.nodes();
    let part = |column: &[f64]| column[place * n..(place + 1) * n].to_vec();
    Mesh {
        x: part(&store.x),
        y: part(&store.y),
        z: part(&store.z),
        ..mesh.clone()
    }
}

/// Whether one of the three numbers differs: by its bits, every NaN as one number.
pub fn differs(a: [f64; 3], b: [f64; 3]) -> bool {
    a.map(canonical) != b.map(canonical)
}

fn tested(mesh: &Mesh, store: &Store) -> Result<usize, u32> {
    calls::accepted(mesh)?;
    let n = mesh.nodes();
    if fits(store, n) { Ok(n) } else { Err(6) }
}

/// The mesh test, 6, 18; then the store as it is left.
pub fn save_shape(mesh: &Mesh, store: &Store, name: Name) -> Result<Store, u32> {
    let n = tested(mesh, store)?;
    let held = place_of(store, name);
    let place = held.or_else(|| free_place(store)).ok_or(18u32)?;
    let mut saved = store.clone();
    for (column, from) in [
        (&mut saved.x, &mesh.x),
        (&mut saved.y, &mesh.y),
        (&mut saved.z, &mesh.z),
    ] {
        column[place * n..(place + 1) * n].copy_from_slice(from);
    }
    if held.is_none() {
        saved.names[place * NAME..(place + 1) * NAME].copy_from_slice(&name);
        saved.marks[place] = 1;
    }
    Ok(saved)
}

/// The mesh test, 6, 17; then the marks as they are left.
pub fn drop_shape(mesh: &Mesh, store: &Store, name: Name) -> Result<Vec<u8>, u32> {
    tested(mesh, store)?;
    let place = place_of(store, name).ok_or(17u32)?;
    let mut marks = store.marks.clone();
    marks[place] = 0;
    Ok(marks)
}

/// 12, the mesh test, 6, 17, the named shape's mesh test; then the mesh in that shape and the matrix renewed.
pub fn return_shape(rule: u64, mesh: &Mesh, given: &[f64], store: &Store, name: Name) -> Result<Moved, u32> {
    calls::kind(rule)?;
    let n = tested(mesh, store)?;
    if given.len() != n * n {
        return Err(6);
    }
    let place = place_of(store, name).ok_or(17u32)?;
    let shape = shape_at(mesh, store, place);
    calls::accepted(&shape)?;
    let changed: Vec<bool> = (0..n).map(|a| differs(mesh.node(a), shape.node(a))).collect();
    calls::renewed(rule, shape, given, &changed)
}
