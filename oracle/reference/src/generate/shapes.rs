//! Stores of named shapes, and what is asked of them.
use super::handed_in;
use super::meshes::{self, coordinate, filled, rule, whole};
use super::numbers::{any_number, easily_lost, ulps};
use super::panels::{Style, point};
use crate::calls::Mesh;
use crate::eval::Out;
use crate::rng::Rng;
use crate::shapes::{self, NAME, Name, PLACES, Store};

/// Whether a name is asked for that the store holds.
#[derive(Clone, Copy, PartialEq)]
enum Asked {
    Held,
    New,
}

pub fn save(r: &mut Rng) -> Out {
    let mesh = mesh(r);
    let (store, name) = asked(r, &mesh, 2);
    Out::default().mesh(&mesh).store(&store).name(name)
}

pub fn dropping(r: &mut Rng) -> Out {
    let mesh = mesh(r);
    let (store, name) = asked(r, &mesh, 4);
    Out::default().mesh(&mesh).store(&store).name(name)
}

pub fn returning(r: &mut Rng) -> Out {
    let (mesh, rule) = (mesh(r), rule(r));
    let due = mesh.nodes() * mesh.nodes();
    let length = if r.one_in(12) { wrong_length(r, due) } else { due };
    let given = handed_in(r, rule, &mesh, length);
    let (store, name) = asked(r, &mesh, 6);
    let input = Out::default().word(rule).mesh(&mesh).numbers(&given);
    input.store(&store).name(name)
}

/// A mesh, seldom damaged: small ones of all sorts, the 3 by 3 screen, a larger sheet; often with nodes that no panel has, and
/// with numbers whose bits are easily lost.
fn mesh(r: &mut Rng) -> Mesh {
    let mut mesh = match r.below(24) {
        0..4 => meshes::three_by_three(),
        4 => {
            let nodes = 10 + r.index(8);
            meshes::sheet(r, nodes)
        }
        _ => meshes::damaged_one_in(r, 7, 8, 7),
    };
    if !whole(&mesh) {
        return mesh;
    }
    while mesh.nodes() < 9 && r.one_in(3) {
        mesh.add_node(point(r, Style::Special));
    }
    for _ in 0..r.pick(&[0, 0, 0, 1, 1, 2]) * mesh.nodes().min(1) {
        let node = r.index(mesh.nodes());
        let place = coordinate(r, &mut mesh, node);
        *place = if r.one_in(3) { 0.0 } else { easily_lost(r) };
    }
    mesh
}

/// A store of shapes of the mesh and a name, which is new once in so many; sometimes of another size.
fn asked(r: &mut Rng, mesh: &Mesh, new_one_in: u64) -> (Store, Name) {
    let ask = if r.one_in(new_one_in) { Asked::New } else { Asked::Held };
    let name = any_name(r);
    let mut store = Store::default();
    marks(r, &mut store);
    names(r, &mut store, name, ask);
    let n = mesh.nodes();
    for _ in 0..PLACES {
        let mut shape = shape(r, mesh);
        for (column, of) in [
            (&mut store.x, &mut shape.x),
            (&mut store.y, &mut shape.y),
            (&mut store.z, &mut shape.z),
        ] {
            of.resize(n, 0.5);
            column.append(of);
        }
    }
    // more often for a mesh that is refused, so that the order of the numbers shows
    if r.one_in(if whole(mesh) { 7 } else { 3 }) {
        for _ in 0..r.pick(&[1, 1, 2]) {
            other_size(r, &mut store);
        }
    }
    (store, name)
}

/// All places free, all held, all but one held, or at random; any mark but 0 holds.
fn marks(r: &mut Rng, store: &mut Store) {
    const HELD: [u8; 6] = [1, 1, 7, 255, 128, 2];
    let free = r.index(PLACES);
    let sort = r.below(8);
    for place in 0..PLACES {
        let held = match sort {
            0 => false,
            1..4 => true,
            4 => place != free,
            _ => r.one_in(2),
        };
        store.marks.push(if held { r.pick(&HELD) } else { 0 });
    }
}

/// Names equal to the one asked for, apart from it in one byte, equal to another place's, or any; then the name is held by one
/// place or two, or by none, where stale names stay in the free places.
fn names(r: &mut Rng, store: &mut Store, name: Name, ask: Asked) {
    let mut names = [[0; NAME]; PLACES];
    for place in 0..PLACES {
        names[place] = match r.below(12) {
            0 => name,
            1..7 => apart(r, name),
            7 | 8 => names[r.index(place + 1)],
            _ => any_name(r),
        };
    }
    if ask == Asked::Held {
        for _ in 0..r.pick(&[1, 1, 1, 2]) {
            let place = r.index(PLACES);
            names[place] = name;
            store.marks[place] = store.marks[place].max(1);
        }
    } else {
        for place in (0..PLACES).filter(|&place| store.marks[place] != 0) {
            while names[place] == name {
                names[place] = apart(r, name);
            }
        }
    }
    store.names = names.concat();
}

/// Text, zeros, ones, or any bytes, those below 1 and above 127 often.
fn any_name(r: &mut Rng) -> Name {
    let any = r.word() as u8;
    match r.below(6) {
        0 => *b"as cast\0",
        1 => r.pick(&[[0; 8], [255; 8], *b"bent    ", *b"\0\0\0\0\0\0\0a", *b"a\0\0\0\0\0\0\0"]),
        2 => r.word().to_le_bytes(),
        _ => std::array::from_fn(|_| r.pick(&[0, 0, 1, 127, 128, 255, b'a', any])),
    }
}

/// Another name, apart in one byte.
fn apart(r: &mut Rng, mut name: Name) -> Name {
    name[r.index(NAME)] ^= r.pick(&[1, 0x20, 0x80, 0xff]);
    name
}

/// One more, one less, none.
fn wrong_length(r: &mut Rng, due: usize) -> usize {
    r.pick(&[due + 1, due.saturating_sub(1), 0])
}

/// Gives one of the five slices another length.
fn other_size(r: &mut Rng, store: &mut Store) {
    match r.index(5) {
        0 => store.marks.resize(wrong_length(r, PLACES), 1),
        1 => store.names.resize(wrong_length(r, PLACES * NAME), 0),
        k => {
            let column = [&mut store.x, &mut store.y, &mut store.z]
                .into_iter()
                .nth(k - 2)
                .unwrap();
            let length = wrong_length(r, column.len());
            column.resize(length, 1.0);
        }
    }
}

/// A shape of the mesh, near to it or not.
fn shape(r: &mut Rng, mesh: &Mesh) -> Mesh {
    let mut shape = mesh.clone();
    let n = mesh.nodes();
    if n == 0 || !whole(mesh) {
        return shape;
    }
    match r.below(16) {
        0 => {}
        1..3 => shift(r, &mut shape, 1),
        3 | 4 => {
            let nodes = 2 + r.index(n);
            shift(r, &mut shape, nodes);
        }
        5 => {
            // every node, alike
            let by = point(r, Style::Half);
            (0..n).for_each(|k| place(&mut shape, k, mesh.node(k), by));
        }
        6 => {
            // every node, each column its own way
            shape.x.iter_mut().for_each(|x| *x *= 1.5);
            shape.y.iter_mut().for_each(|y| *y *= 0.75);
            shape.z.iter_mut().for_each(|z| *z += 0.25);
        }
        7 | 8 => turn_zeros(r, &mut shape),
        9 => other_nans(r, &mut shape),
        10 => {
            let node = r.index(n);
            let at = coordinate(r, &mut shape, node);
            *at = if at.is_nan() { 0.5 } else { easily_lost(r) };
        }
        11 => flatten(r, &mut shape),
        12 => {
            let alone = |k: &usize| (0..mesh.panels()).all(|panel| !mesh.indices(panel).contains(k));
            let alone: Vec<usize> = (0..n).filter(alone).collect();
            for k in alone {
                let by = point(r, Style::Uniform);
                place(&mut shape, k, mesh.node(k), by);
            }
        }
        13 => {
            // by the last place of one number
            let node = r.index(n);
            let at = coordinate(r, &mut shape, node);
            *at = ulps(*at, r.pick(&[-1, 1]));
        }
        14 => {
            // onto another node, mostly without area
            let (from, to) = (r.index(n), r.index(n));
            place(&mut shape, from, mesh.node(to), [0.0; 3]);
        }
        _ => (0..n).for_each(|k| place(&mut shape, k, [0, 1, 2].map(|_| any_number(r)), [0.0; 3])),
    }
    shape
}

fn place(mesh: &mut Mesh, node: usize, at: [f64; 3], by: [f64; 3]) {
    [mesh.x[node], mesh.y[node], mesh.z[node]] = std::array::from_fn(|k| at[k] + by[k]);
}

/// Moves so many nodes, some perhaps twice, a little; one of them by one coordinate alone.
pub fn shift(r: &mut Rng, mesh: &mut Mesh, nodes: usize) {
    for _ in 0..nodes {
        let node = r.index(mesh.nodes());
        let at = coordinate(r, mesh, node);
        *at += 0.1 * r.signed();
        if r.one_in(2) {
            let by = point(r, Style::Uniform).map(|x| 0.1 * x);
            place(mesh, node, mesh.node(node), by);
        }
    }
}

/// The numbers of a mesh that are of a sort.
fn numbers(mesh: &mut Mesh, sort: fn(f64) -> bool) -> Vec<&mut f64> {
    let all = mesh.x.iter_mut().chain(&mut mesh.y).chain(&mut mesh.z);
    all.filter(|x| sort(**x)).collect()
}

/// Gives one zero or several the other sign.
fn turn_zeros(r: &mut Rng, mesh: &mut Mesh) {
    let mut zeros = numbers(mesh, |x| x == 0.0);
    if let Some(last) = zeros.len().checked_sub(1) {
        let one = r.index(last + 1);
        let several = r.one_in(3);
        for (k, zero) in zeros.iter_mut().enumerate() {
            if k == one || several && r.one_in(4) {
                **zero = -**zero;
            }
        }
    }
}

/// Gives each NaN other bits.
fn other_nans(r: &mut Rng, mesh: &mut Mesh) {
    for nan in numbers(mesh, f64::is_nan) {
        *nan = f64::from_bits(nan.to_bits() ^ r.pick(&[1 << 63, 1 << 50 | 2, 1 << 63 | 6]) | 1);
    }
}

/// Takes a panel's area away: a corner onto another, or all three on a line.
fn flatten(r: &mut Rng, mesh: &mut Mesh) {
    let panels: Vec<[usize; 3]> = (0..mesh.panels()).map(|panel| mesh.indices(panel)).collect();
    if !panels.is_empty() && panels.iter().flatten().all(|&k| k < mesh.nodes()) {
        let [a, b, c] = r.pick(&panels);
        let at = mesh.node(a);
        place(mesh, b, at, [0.0; 3]);
        if r.one_in(3) {
            place(mesh, a, [0.0; 3], [0.0; 3]);
            place(mesh, b, [1.0, 0.0, 0.0], [0.0; 3]);
            place(mesh, c, [3.0, 0.0, 0.0], [0.0; 3]);
        }
    }
}

/// The store that holds these shapes, the first under the first name and so on, its free places filled with ones.
pub fn store_of(nodes: usize, held: &[(Name, &Mesh)]) -> Store {
    let mut store = Store {
        marks: vec![0; PLACES],
        names: vec![0; PLACES * NAME],
        x: vec![1.0; PLACES * nodes],
        y: vec![1.0; PLACES * nodes],
        z: vec![1.0; PLACES * nodes],
    };
    for (name, mesh) in held {
        store = shapes::save_shape(mesh, &store, *name).expect("an accepted shape");
    }
    store
}

/// Cases of a kind at the limits of sizes, and accepted ones of many nodes.
pub fn limits(kind: &str) -> Vec<Out> {
    match kind {
        "save_shape" | "drop_shape" => store_limits(),
        "return_shape" => return_limits(),
        _ => vec![],
    }
}

const CAST: Name = *b"as cast\0";
const BENT: Name = *b"bent    ";

/// One node and one panel too many; the largest mesh, its name held and not.
fn store_limits() -> Vec<Out> {
    let asked = |mesh: &Mesh, store: &Store, name: Name| Out::default().mesh(mesh).store(store).name(name);
    let many = [(4097, 1), (3, 8193)].map(|(nodes, panels)| filled(nodes, panels));
    let mut cases: Vec<Out> = many.iter().map(|mesh| asked(mesh, &store_of(3, &[]), CAST)).collect();
    let largest = filled(4096, 8192);
    let store = store_of(4096, &[(CAST, &largest)]);
    cases.extend([CAST, BENT].map(|name| asked(&largest, &store, name)));
    cases
}

/// The same, without a matrix that is due; and returns of 200 nodes, of which none, one, some or most differ.
fn return_limits() -> Vec<Out> {
    let asked = |rule: u64, mesh: &Mesh, given: &[f64], store: &Store| {
        let input = Out::default().word(rule).mesh(mesh).numbers(given);
        input.store(store).name(CAST)
    };
    let mut cases = vec![];
    for (nodes, panels) in [(4097, 1), (3, 8193)] {
        let (mesh, store) = (filled(nodes, panels), store_of(3, &[]));
        cases.extend([1, 6].map(|rule| asked(rule, &mesh, &[], &store)));
    }
    let largest = filled(4096, 8192);
    cases.push(asked(2, &largest, &[0.5], &store_of(4096, &[(CAST, &largest)])));
    let (sheet, r) = (meshes::sheet(&mut Rng(2), 200), &mut Rng(3));
    for nodes in [0, 1, 5, 300] {
        let mut bent = sheet.clone();
        shift(r, &mut bent, nodes);
        let given = handed_in(r, 3, &bent, 40_000);
        cases.push(asked(
            3,
            &bent,
            &given,
            &store_of(200, &[(BENT, &bent), (CAST, &sheet)]),
        ));
    }
    cases
}
