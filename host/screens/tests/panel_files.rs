//! The panel file's writer: the bytes it writes, what the reader gives back of them, and which meshes share a file.
#[allow(dead_code, unreachable_pub)] // not all of it is used here
#[path = "../../../oracle/reference/src/rng.rs"]
mod rng;

use rng::Rng;
use screens::*;
use std::path::Path;

/// Any NaN in a file.
const NAN: u64 = 0x7ff8_0000_0000_0000;

/// Numbers that are not ordinary, by their bits: both zeros, the smallest, one, the largest, both infinities and some NaN.
const STRANGE: [u64; 10] = [
    0,
    1 << 63,
    1,
    0x3ff0_0000_0000_0000,
    0x7fef_ffff_ffff_ffff,
    0x7ff0_0000_0000_0000,
    0xfff0_0000_0000_0000,
    0xffff_ffff_ffff_ffff,
    0x7ff0_0000_0000_0001,
    0xfff8_0000_0000_0000,
];

/// The columns of a mesh, coordinates by their bits.
#[derive(Clone, Debug)]
struct Columns {
    nodes: [Vec<u64>; 3],
    panels: [Vec<usize>; 3],
}

impl Columns {
    /// A square metre of two panels.
    fn square() -> Self {
        let column = |numbers: [f64; 4]| numbers.map(f64::to_bits).to_vec();
        Columns {
            nodes: [[0.0, 1.0, 0.0, 1.0], [0.0, 0.0, 1.0, 1.0], [0.0; 4]].map(column),
            panels: [vec![0, 1], vec![1, 3], vec![2, 2]],
        }
    }

    /// The file that the writer makes, or the mesh's refusal.
    fn written(&self) -> Result<Vec<u8>, Refusal> {
        let [x, y, z] = self.numbers();
        let [a, b, c] = &self.panels;
        let mesh = TriangleMeshView::new((&x, &y, &z), (a, b, c))?;
        let mut file = vec![0x5a; panel_file_length(mesh.nnode(), mesh.len())];
        write_panel_file(&mesh, &mut file)?;
        Ok(file)
    }

    fn numbers(&self) -> [Vec<f64>; 3] {
        let numbers = |column: &Vec<u64>| column.iter().map(|bits| f64::from_bits(*bits)).collect();
        self.nodes.each_ref().map(numbers)
    }

    /// Document 01's file of the mesh, byte by byte.
    fn due(&self) -> Vec<u8> {
        let (n, p) = (self.nodes[0].len(), self.panels[0].len());
        let mut file = b"PNL\x01\x00".to_vec();
        file.extend([n as u16, p as u16].map(u16::to_le_bytes).as_flattened());
        let node = |k: usize| self.nodes.each_ref().map(|column| one_nan(column[k]).to_le_bytes());
        let panel = |i: usize| self.panels.each_ref().map(|column| (column[i] as u16).to_le_bytes());
        (0..n).for_each(|k| file.extend(node(k).as_flattened()));
        (0..p).for_each(|i| file.extend(panel(i).as_flattened()));
        file
    }

    /// What the reader gives back of a file of the same counts.
    fn read(&self, file: &[u8]) -> Self {
        let [mut x, mut y, mut z] = self.nodes.each_ref().map(|column| vec![7.0; column.len()]);
        let [mut a, mut b, mut c] = self.panels.each_ref().map(|column| vec![7777; column.len()]);
        read_panel_file(file, (&mut x, &mut y, &mut z), (&mut a, &mut b, &mut c)).unwrap();
        Columns {
            nodes: [x, y, z].map(|column| column.into_iter().map(f64::to_bits).collect()),
            panels: [a, b, c],
        }
    }

    /// Whether the coordinates' bits, with NaN as one number, and the indices are the same.
    fn agrees(&self, other: &Self) -> bool {
        let bits = |mesh: &Self| -> Vec<u64> { mesh.nodes.iter().flatten().map(|bits| one_nan(*bits)).collect() };
        bits(self) == bits(other) && self.panels == other.panels
    }
}

fn one_nan(bits: u64) -> u64 {
    if f64::from_bits(bits).is_nan() { NAN } else { bits }
}

/// Mostly a number of an ordinary size, at times any bits at all.
fn coordinate(r: &mut Rng) -> u64 {
    match r.below(8) {
        0 => r.word(),
        1 => r.pick(&STRANGE),
        _ => r.signed().to_bits(),
    }
}

/// Three different nodes of so many, which are at least three.
fn corners(nodes: usize, r: &mut Rng) -> [usize; 3] {
    let (first, second) = (r.index(nodes), 1 + r.index(nodes - 2));
    let third = second + 1 + r.index(nodes - 1 - second);
    [0, second, third].map(|step| (first + step) % nodes)
}

/// A mesh of a few nodes and panels, accepted or not.
fn any_mesh(r: &mut Rng) -> Columns {
    let nodes = r.index(13);
    let count = if nodes < 3 { 0 } else { r.index(17) };
    let panels: Vec<_> = (0..count).map(|_| corners(nodes, r)).collect();
    Columns {
        nodes: [0, 1, 2].map(|_| (0..nodes).map(|_| coordinate(r)).collect()),
        panels: [0, 1, 2].map(|c| panels.iter().map(|panel| panel[c]).collect()),
    }
}

/// The mesh with another number in one place, if it has a place.
fn changed(mesh: &Columns, r: &mut Rng) -> Option<Columns> {
    let mut mesh = mesh.clone();
    let (column, nodes) = (r.index(3), mesh.nodes[0].len());
    if r.one_in(2) && !mesh.panels[0].is_empty() {
        let (place, by) = (r.index(mesh.panels[0].len()), 1 + r.index(nodes - 1));
        let index = &mut mesh.panels[column][place];
        *index = (*index + by) % nodes;
    } else if nodes > 0 {
        mesh.nodes[column][r.index(nodes)] ^= 1 << r.below(64);
    } else {
        return None;
    }
    Some(mesh)
}

#[test]
fn a_square_of_two_panels() {
    let zero = [0; 8];
    let one = [0, 0, 0, 0, 0, 0, 0xf0, 0x3f];
    let due = [
        &b"PNL\x01\x00\x04\x00\x02\x00"[..],
        [zero, zero, zero].as_flattened(),
        [one, zero, zero].as_flattened(),
        [zero, one, zero].as_flattened(),
        [one, one, zero].as_flattened(),
        &[0, 0, 1, 0, 2, 0],
        &[1, 0, 3, 0, 2, 0],
    ]
    .concat();
    assert_eq!(due.len(), 117);
    assert_eq!(Columns::square().written(), Ok(due));
}

#[test]
fn an_empty_mesh() {
    let empty = Columns {
        nodes: [vec![], vec![], vec![]],
        panels: [vec![], vec![], vec![]],
    };
    assert_eq!(empty.written(), Ok(vec![0x50, 0x4e, 0x4c, 1, 0, 0, 0, 0, 0]));
}

#[test]
fn lengths() {
    assert_eq!(panel_file_length(0, 0), 9);
    assert_eq!(panel_file_length(4, 2), 117);
    assert_eq!(panel_file_length(4096, 8192), 147_465);
    assert_eq!(
        panel_file_length(768_614_336_404_564_650, 0),
        18_446_744_073_709_551_609
    );
    assert_eq!(panel_file_length(768_614_336_404_564_651, 0), usize::MAX);
    assert_eq!(panel_file_length(0, usize::MAX / 6 + 1), usize::MAX);
    assert_eq!(panel_file_length(usize::MAX, usize::MAX), usize::MAX);
}

#[test]
fn strange_numbers_keep_their_bits_and_nan_is_one() {
    let mut mesh = Columns::square();
    for (place, column) in mesh.nodes.iter_mut().enumerate() {
        column.extend(STRANGE.into_iter().cycle().skip(3 * place).take(STRANGE.len()));
    }
    let file = mesh.written().unwrap();
    // the first column of the nodes behind the square's four
    let written = file[9 + 4 * 24..]
        .chunks(24)
        .map(|node| u64::from_le_bytes(node[..8].try_into().unwrap()));
    let due = [&STRANGE[..7], &[NAN; 3]].concat();
    assert_eq!(written.take(STRANGE.len()).collect::<Vec<_>>(), due);
    assert_eq!(file, mesh.due());
    assert!(mesh.read(&file).agrees(&mesh));
}

#[test]
fn a_nan_area_is_accepted() {
    let mut wide = Columns::square();
    wide.panels = [vec![0], vec![1], vec![2]];
    wide.nodes[0][0] = (-1.7e308f64).to_bits();
    wide.nodes[0][1] = 1.7e308f64.to_bits();
    let mut other = Columns::square();
    other.nodes[2][1] = 0xffff_ffff_ffff_ffff;
    for mesh in [wide, other] {
        let file = mesh.written().unwrap();
        assert_eq!(file, mesh.due());
        assert!(mesh.read(&file).agrees(&mesh));
    }
}

#[test]
fn the_largest_mesh() {
    let number = |k: usize| (k as f64).to_bits();
    let mesh = Columns {
        nodes: [
            (0..4096).map(number).collect(),
            (0..4096).map(|k| number(k % 2)).collect(),
            (0..4096).map(|k| number(k / 7)).collect(),
        ],
        panels: [0, 1, 2].map(|c| (0..8192).map(|i| i % 4094 + c).collect()),
    };
    let file = mesh.written().unwrap();
    assert_eq!(file.len(), 147_465);
    assert!(file == mesh.due());
    assert!(mesh.read(&file).agrees(&mesh));
}

#[test]
fn a_buffer_of_another_length_is_left_as_it_was() {
    let square = Columns::square();
    let [x, y, z] = square.numbers();
    let [a, b, c] = &square.panels;
    let mesh = TriangleMeshView::new((&x, &y, &z), (a, b, c)).unwrap();
    for length in [0, 1, 9, 116, 118, 200] {
        let pattern: Vec<u8> = (0..length).map(|k| (31 * k + 7) as u8).collect();
        let mut file = pattern.clone();
        assert_eq!(write_panel_file(&mesh, &mut file), Err(Refusal::Output), "{length}");
        assert_eq!(file, pattern, "{length}");
    }
}

#[test]
fn the_examples_are_written_as_they_were() {
    let examples = Path::new(env!("CARGO_MANIFEST_DIR")).join("../../examples");
    for name in ["plate.pnl", "bent.pnl", "hole.pnl"] {
        let file = std::fs::read(examples.join(name)).unwrap();
        let mesh = TriangleMesh::from_panel_file(&file).unwrap();
        assert!(mesh.to_panel_file() == file, "{name}");
    }
}

#[test]
fn an_owned_mesh_with_a_nan_is_read_back_and_equals_none() {
    let mut mesh = Columns::square();
    mesh.nodes[0][3] = 0x7ff0_0000_0000_0001;
    let [x, y, z] = mesh.numbers();
    let [a, b, c] = mesh.panels.clone();
    let owned = TriangleMesh::new((x, y, z), (a, b, c)).unwrap();
    let file = owned.to_panel_file();
    assert_eq!(file, mesh.due());
    let read = TriangleMesh::from_panel_file(&file).unwrap();
    assert_eq!(read.to_panel_file(), file);
    assert_ne!(read, owned);
}

#[test]
fn any_accepted_mesh_is_read_back_and_shares_its_file_with_no_other() {
    let mut r = Rng(2);
    let (mut accepted, mut compared, mut alike) = (0, 0, 0);
    while accepted < 200_000 {
        let mesh = any_mesh(&mut r);
        let Ok(file) = mesh.written() else { continue };
        accepted += 1;
        assert!(file == mesh.due(), "{mesh:x?}");
        assert!(mesh.read(&file).agrees(&mesh), "{mesh:x?}");
        if let Some(other) = changed(&mesh, &mut r)
            && let Ok(others) = other.written()
        {
            compared += 1;
            alike += usize::from(mesh.agrees(&other));
            assert_eq!(others == file, mesh.agrees(&other), "{mesh:x?} {other:x?}");
        }
    }
    // those alike have one NaN for another
    assert!(compared > 100_000 && alike > 1_000, "{compared} {alike}");
}

#[test]
fn every_bit_of_a_coordinate_and_every_index_tells() {
    let mut files = std::collections::BTreeMap::new();
    let mut note = |mesh: Columns| {
        if let Ok(file) = mesh.written() {
            let other = files.entry(file).or_insert(mesh.clone());
            assert!(other.agrees(&mesh), "{mesh:x?} {other:x?}");
        }
    };
    let mut square = Columns::square();
    square.nodes[2][3] = f64::INFINITY.to_bits();
    for (column, node, bit) in (0..3 * 4 * 64).map(|k| (k % 3, k / 3 % 4, k / 12)) {
        let mut mesh = square.clone();
        mesh.nodes[column][node] ^= 1 << bit;
        note(mesh);
    }
    for (column, panel, index) in (0..3 * 2 * 4).map(|k| (k % 3, k / 3 % 2, k / 6)) {
        let mut mesh = square.clone();
        mesh.panels[column][panel] = index;
        note(mesh);
    }
    // 768 bits, of which 8 leave panel 0 no area and 52 make one and the same NaN; 10 other indices; the mesh itself
    assert_eq!(files.len(), 768 - 8 - 51 + 10 + 1);
}
