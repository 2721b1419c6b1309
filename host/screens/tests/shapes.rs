//! Named shapes: what each of the three calls writes, and that it writes nothing else. Cells that are due come from a fresh
//! matrix of the named shape; everything is compared in bits, with guards on both sides of what is lent.
use screens::*;

const RULE: QuadratureKind = QuadratureKind::Dunavant2;
const GUARD: usize = 3;

type Name = [u8; 8];

/// A buffer of which the middle is lent.
#[derive(Clone)]
struct Buffer<T> {
    all: Vec<T>,
    length: usize,
}

impl<T: Copy> Buffer<T> {
    fn new(guard: T, lent: Vec<T>) -> Self {
        let guards = [guard; GUARD];
        Buffer {
            length: lent.len(),
            all: [&guards[..], &lent, &guards].concat(),
        }
    }

    fn lent(&self) -> &[T] {
        &self.all[GUARD..][..self.length]
    }

    fn lent_mut(&mut self) -> &mut [T] {
        &mut self.all[GUARD..][..self.length]
    }
}

/// What the calls are lent: a mesh, a matrix and a store.
#[derive(Clone)]
struct Lent {
    nodes: [Buffer<f64>; 3],
    panels: [Buffer<usize>; 3],
    matrix: Buffer<f64>,
    marks: Buffer<u8>,
    names: Buffer<u8>,
    shapes: [Buffer<f64>; 3],
}

fn lent<T: Copy>([a, b, c]: &[Buffer<T>; 3]) -> (&[T], &[T], &[T]) {
    (a.lent(), b.lent(), c.lent())
}

fn lent_mut<T: Copy>([a, b, c]: &mut [Buffer<T>; 3]) -> (&mut [T], &mut [T], &mut [T]) {
    (a.lent_mut(), b.lent_mut(), c.lent_mut())
}

/// So many numbers from 7 + `from` on.
fn counted(from: usize, count: usize) -> Vec<f64> {
    (from..from + count).map(|k| 7.0 + k as f64).collect()
}

impl Lent {
    /// A mesh, a matrix of any numbers, and a store of free places with any numbers in them.
    fn new(nodes: [Vec<f64>; 3], panels: &[[usize; 3]]) -> Self {
        let n = nodes[0].len();
        Lent {
            matrix: Buffer::new(-78.0, counted(0, n * n)),
            ..Lent::without_matrix(nodes, panels)
        }
    }

    /// The same with a matrix of no cells.
    fn without_matrix(nodes: [Vec<f64>; 3], panels: &[[usize; 3]]) -> Self {
        let n = nodes[0].len();
        let corner = |c: usize| panels.iter().map(|panel| panel[c]).collect();
        Lent {
            nodes: nodes.map(|column| Buffer::new(-77.0, column)),
            panels: [0, 1, 2].map(|c| Buffer::new(99, corner(c))),
            matrix: Buffer::new(-78.0, vec![]),
            marks: Buffer::new(55, vec![0; 8]),
            names: Buffer::new(56, vec![b'.'; 64]),
            shapes: [1000, 2000, 3000].map(|from| Buffer::new(-79.0, counted(from, 8 * n))),
        }
    }

    /// Nodes (i, j, 0) for i and j below `side`, node i + side × j, and each square cut in two.
    fn grid(side: usize) -> Self {
        let n = side * side;
        let column = |at: fn(usize, usize) -> usize| (0..n).map(|k| at(k, side) as f64).collect();
        let squares = (0..n - side).filter(|k| k % side < side - 1);
        let panels: Vec<[usize; 3]> = squares
            .flat_map(|k| [[k, k + 1, k + side], [k + 1, k + side + 1, k + side]])
            .collect();
        Lent::new([column(|k, s| k % s), column(|k, s| k / s), vec![0.0; n]], &panels)
    }

    fn n(&self) -> usize {
        self.nodes[0].length
    }

    fn save(&mut self, name: &Name) -> Result<(), Refusal> {
        let (marks, names) = (self.marks.lent_mut(), self.names.lent_mut());
        let shapes = lent_mut(&mut self.shapes);
        save_shape(lent(&self.nodes), lent(&self.panels), marks, names, shapes, name)
    }

    fn drop(&mut self, name: &Name) -> Result<(), Refusal> {
        let (marks, names) = (self.marks.lent_mut(), self.names.lent());
        drop_shape(
            lent(&self.nodes),
            lent(&self.panels),
            marks,
            names,
            lent(&self.shapes),
            name,
        )
    }

    fn return_to(&mut self, name: &Name) -> Result<usize, Refusal> {
        return_shape(
            lent_mut(&mut self.nodes),
            lent(&self.panels),
            RULE,
            self.matrix.lent_mut(),
            self.marks.lent(),
            self.names.lent(),
            lent(&self.shapes),
            name,
        )
    }

    /// Writes a place by hand.
    fn put(&mut self, place: usize, mark: u8, name: &Name) {
        self.marks.lent_mut()[place] = mark;
        self.names.lent_mut()[8 * place..][..8].copy_from_slice(name);
        self.put_coordinates(place);
    }

    /// Writes the mesh's coordinates to a place by hand.
    fn put_coordinates(&mut self, place: usize) {
        let n = self.n();
        for (shape, column) in self.shapes.iter_mut().zip(&self.nodes) {
            shape.lent_mut()[n * place..][..n].copy_from_slice(column.lent());
        }
    }

    /// A coordinate of a node in a place.
    fn saved(&mut self, place: usize, node: usize, axis: usize) -> &mut f64 {
        let at = self.n() * place + node;
        &mut self.shapes[axis].lent_mut()[at]
    }

    /// Which nodes of a place differ from the mesh's; NaN is one number.
    fn differing(&self, place: usize) -> Vec<usize> {
        let n = self.n();
        let alike = |a: f64, b: f64| a.to_bits() == b.to_bits() || (a.is_nan() && b.is_nan());
        let differs = |node: &usize| {
            let mut axes = self.nodes.iter().zip(&self.shapes);
            axes.any(|(column, shape)| !alike(column.lent()[*node], shape.lent()[n * place + node]))
        };
        (0..n).filter(differs).collect()
    }

    /// Whether each node is in a panel with one of some nodes.
    fn ring(&self, nodes: &[usize]) -> Vec<bool> {
        let (a, b, c) = lent(&self.panels);
        let mut ring = vec![false; self.n()];
        for ((a, b), c) in a.iter().zip(b).zip(c) {
            if [a, b, c].iter().any(|corner| nodes.contains(corner)) {
                [a, b, c].iter().for_each(|corner| ring[**corner] = true);
            }
        }
        ring
    }

    /// Sets the mesh to a place by hand: its coordinates, and the cells of the rings of the nodes that differ out of the
    /// shape's fresh matrix. Yields how many cells these are.
    fn put_back(&mut self, place: usize) -> usize {
        let (n, ring) = (self.n(), self.ring(&self.differing(place)));
        for (shape, column) in self.shapes.iter().zip(&mut self.nodes) {
            column.lent_mut().copy_from_slice(&shape.lent()[n * place..][..n]);
        }
        let fresh = self.fresh();
        let named: Vec<usize> = (0..n * n).filter(|k| ring[k / n] || ring[k % n]).collect();
        named.iter().for_each(|&k| self.matrix.lent_mut()[k] = fresh[k]);
        named.len()
    }

    /// The mesh's fresh matrix.
    fn fresh(&self) -> Vec<f64> {
        let mesh = TriangleMeshView::new(lent(&self.nodes), lent(&self.panels)).unwrap();
        let mut matrix = vec![0.0; self.n() * self.n()];
        triangle_mesh_inductance_matrix(&mesh, RULE, &mut matrix).unwrap();
        matrix
    }

    /// All buffers in bits, with their guards.
    fn bits(&self) -> [Vec<u64>; 12] {
        let numbers = |buffer: &Buffer<f64>| buffer.all.iter().map(|x| x.to_bits()).collect();
        let indices = |buffer: &Buffer<usize>| buffer.all.iter().map(|k| *k as u64).collect();
        let bytes = |buffer: &Buffer<u8>| buffer.all.iter().map(|byte| u64::from(*byte)).collect();
        let ([x, y, z], [a, b, c], [u, v, w]) = (&self.nodes, &self.panels, &self.shapes);
        [
            numbers(x),
            numbers(y),
            numbers(z),
            indices(a),
            indices(b),
            indices(c),
            numbers(&self.matrix),
            bytes(&self.marks),
            bytes(&self.names),
            numbers(u),
            numbers(v),
            numbers(w),
        ]
    }

    /// That a call leaves what is due and nothing else.
    fn does<T: PartialEq + std::fmt::Debug>(
        &mut self,
        call: impl FnOnce(&mut Self) -> T,
        answer: T,
        due: impl FnOnce(&mut Self),
    ) {
        let mut left = self.clone();
        due(&mut left);
        assert_eq!(call(self), answer);
        assert!(self.bits() == left.bits(), "what is left, {answer:?}");
    }

    /// That all three calls refuse, and write nothing.
    fn refused(&mut self, name: &Name, save: Refusal, drop: Refusal, give_back: Refusal) {
        self.does(|lent| lent.save(name), Err(save), |_| ());
        self.does(|lent| lent.drop(name), Err(drop), |_| ());
        self.does(|lent| lent.return_to(name), Err(give_back), |_| ());
    }

    /// Returns, and compares with the return by hand from a place.
    fn returns_to(&mut self, name: &Name, place: usize) -> usize {
        let mut left = self.clone();
        let count = left.put_back(place);
        assert_eq!(self.return_to(name), Ok(count));
        assert!(self.bits() == left.bits(), "what is left of a return to place {place}");
        count
    }

    /// Moves a node by hand, without the matrix.
    fn shift(&mut self, node: usize, by: [f64; 3]) {
        for (column, by) in self.nodes.iter_mut().zip(by) {
            column.lent_mut()[node] += by;
        }
    }
}

#[test]
fn a_new_name_takes_the_first_free_place() {
    let mut lent = Lent::grid(3);
    lent.put(0, 1, b"first   ");
    lent.put(2, 200, b"third   ");
    for (place, name) in [
        (1, b"as cast\0"),
        (3, b"\0\0\0\0\0\0\0\0"),
        (4, b"as cast "),
        (5, b"as\0cast\0"),
    ] {
        lent.shift(place, [0.1, 0.2, 0.3]);
        lent.does(|lent| lent.save(name), Ok(()), |due| due.put(place, 1, name));
    }
}

#[test]
fn a_held_name_keeps_its_mark() {
    for mark in [1, 2, 7, 128, 255] {
        let mut lent = Lent::grid(3);
        lent.put(3, mark, b"as cast\0");
        lent.shift(4, [0.1, 0.2, 0.3]);
        lent.does(|lent| lent.save(b"as cast\0"), Ok(()), |due| due.put_coordinates(3));
        assert_eq!(lent.marks.lent(), [0, 0, 0, mark, 0, 0, 0, 0]);
    }
}

#[test]
fn any_mark_but_0_is_held() {
    for mark in 1..=255 {
        let mut lent = Lent::grid(3);
        (0..8).for_each(|place| lent.put(place, mark, &[b'a' + place as u8; 8]));
        lent.refused(
            b"new     ",
            Refusal::NoPlace,
            Refusal::UnknownName,
            Refusal::UnknownName,
        );
        lent.does(|lent| lent.save(b"cccccccc"), Ok(()), |_| ());
        lent.shift(4, [0.1, 0.2, 0.3]);
        lent.returns_to(b"hhhhhhhh", 7);
        lent.does(|lent| lent.drop(b"hhhhhhhh"), Ok(()), |due| due.marks.lent_mut()[7] = 0);
        lent.does(|lent| lent.save(b"new     "), Ok(()), |due| due.put(7, 1, b"new     "));
    }
}

#[test]
fn nine_names() {
    let mut lent = Lent::grid(3);
    for place in 0..8 {
        lent.shift(place, [0.01, -0.02, 0.1]);
        let name = [b'1' + place as u8; 8];
        lent.does(|lent| lent.save(&name), Ok(()), |due| due.put(place, 1, &name));
    }
    lent.shift(4, [0.1, 0.2, 0.3]);
    lent.does(|lent| lent.save(&[b'9'; 8]), Err(Refusal::NoPlace), |_| ());
    for place in [0, 3, 7] {
        let name = [b'1' + place as u8; 8];
        lent.does(|lent| lent.save(&name), Ok(()), |due| due.put_coordinates(place));
    }
    lent.does(|lent| lent.drop(&[b'6'; 8]), Ok(()), |due| due.marks.lent_mut()[5] = 0);
    lent.does(|lent| lent.save(&[b'9'; 8]), Ok(()), |due| due.put(5, 1, &[b'9'; 8]));
}

#[test]
fn of_two_places_with_one_name_the_first_counts() {
    let name = b"as cast\0";
    let mut lent = Lent::grid(3);
    lent.put(2, 1, name);
    lent.shift(4, [0.1, 0.2, 0.3]);
    lent.put(5, 9, name);
    lent.shift(0, [-0.1, 0.0, 0.2]);
    let present = lent.nodes.clone();
    assert!(lent.returns_to(name, 2) > 0);
    lent.nodes.clone_from(&present);
    lent.does(|lent| lent.save(name), Ok(()), |due| due.put_coordinates(2));
    lent.does(|lent| lent.drop(name), Ok(()), |due| due.marks.lent_mut()[2] = 0);
    assert!(lent.returns_to(name, 5) > 0);
    lent.nodes.clone_from(&present);
    lent.does(|lent| lent.drop(name), Ok(()), |due| due.marks.lent_mut()[5] = 0);
    lent.does(|lent| lent.drop(name), Err(Refusal::UnknownName), |_| ());
    lent.does(|lent| lent.return_to(name), Err(Refusal::UnknownName), |_| ());
}

#[test]
fn a_stale_name_is_never_found() {
    let name = b"as cast\0";
    let mut lent = Lent::grid(3);
    for place in [1, 2, 6] {
        lent.put(place, 0, name);
    }
    lent.put(0, 1, b"first   ");
    lent.shift(4, [0.1, 0.2, 0.3]);
    lent.does(|lent| lent.drop(name), Err(Refusal::UnknownName), |_| ());
    lent.does(|lent| lent.return_to(name), Err(Refusal::UnknownName), |_| ());
    // a held place behind those that are free
    lent.put(4, 3, name);
    lent.shift(0, [-0.1, 0.0, 0.2]);
    lent.returns_to(name, 4);
    lent.shift(8, [0.1, 0.0, 0.2]);
    lent.does(|lent| lent.save(name), Ok(()), |due| due.put_coordinates(4));
    lent.does(|lent| lent.drop(name), Ok(()), |due| due.marks.lent_mut()[4] = 0);
    lent.does(|lent| lent.save(name), Ok(()), |due| due.put(1, 1, name));
}

#[test]
fn names_are_compared_in_all_eight_bytes() {
    let names = [
        b"as cast\0",
        b"as cast\x01",
        b"as cast\xff",
        b"As cast\0",
        b"as\0cast\0",
        b"as\0casu\0",
        b"\0s cast\0",
        b"\x80s cast\0",
    ];
    let mut lent = Lent::grid(3);
    for (place, name) in names.into_iter().enumerate() {
        lent.shift(4, [0.01, 0.02, 0.03]);
        lent.does(|lent| lent.save(name), Ok(()), |due| due.put(place, 1, name));
    }
    for (place, name) in names.into_iter().enumerate() {
        lent.returns_to(name, place);
    }
    lent.refused(
        b"as cast\x02",
        Refusal::NoPlace,
        Refusal::UnknownName,
        Refusal::UnknownName,
    );
}

#[test]
fn parts_of_another_length() {
    let cut = |change: fn(&mut Lent)| {
        let mut lent = Lent::grid(3);
        lent.put(1, 1, b"as cast\0");
        lent.shift(4, [0.1, 0.2, 0.3]);
        change(&mut lent);
        lent
    };
    let stores: [fn(&mut Lent); 13] = [
        |lent| lent.marks.length = 7,
        |lent| lent.marks.length = 9,
        |lent| lent.marks.length = 0,
        |lent| lent.names.length = 63,
        |lent| lent.names.length = 65,
        |lent| lent.names.length = 56,
        |lent| lent.shapes[0].length -= 1,
        |lent| lent.shapes[0].length += 1,
        |lent| lent.shapes[1].length -= 1,
        |lent| lent.shapes[1].length += 1,
        |lent| lent.shapes[2].length -= 1,
        |lent| lent.shapes[2].length += 1,
        |lent| lent.shapes.iter_mut().for_each(|shape| shape.length -= 8),
    ];
    for change in stores {
        // 6 before 17 and 18
        for name in [b"as cast\0", b"unknown "] {
            cut(change).refused(name, Refusal::Output, Refusal::Output, Refusal::Output);
        }
        let mut full = cut(change);
        full.marks.all.fill(1);
        full.does(|lent| lent.save(b"unknown "), Err(Refusal::Output), |_| ());
    }
    for by in [-1, 1] {
        for name in [b"as cast\0", b"unknown "] {
            let mut lent = cut(|_| ());
            lent.matrix.length = lent.matrix.length.strict_add_signed(by);
            lent.does(|lent| lent.return_to(name), Err(Refusal::Output), |_| ());
        }
    }
    assert!(
        cut(|_| ()).returns_to(b"as cast\0", 1) > 0,
        "it is done with the lengths due"
    );
}

/// Of each also what is looked for behind it applies.
#[test]
fn the_mesh_is_tested_first() {
    let refused = |change: fn(&mut Lent), refusal: Refusal| {
        for short in [false, true] {
            for name in [b"as cast\0", b"unknown "] {
                let mut lent = Lent::grid(3);
                lent.put(1, 1, b"as cast\0");
                change(&mut lent);
                if short {
                    lent.names.length = 63;
                    lent.matrix.length -= 1;
                }
                lent.refused(name, refusal, refusal, refusal);
            }
        }
    };
    refused(|lent| lent.nodes[0].length -= 1, Refusal::NodeColumns);
    refused(|lent| lent.nodes[2].length -= 1, Refusal::NodeColumns);
    refused(|lent| lent.panels[1].length -= 1, Refusal::PanelColumns);
    refused(|lent| lent.panels[2].lent_mut()[7] = 9, Refusal::MissingNode);
    refused(|lent| lent.panels[2].lent_mut()[0] = 1, Refusal::ZeroArea);
    refused(|lent| lent.nodes[0].lent_mut()[0] = 1.0, Refusal::ZeroArea);
}

/// A strip of nodes with a panel for every three in a row, as many as are asked for, and no matrix.
fn strip(nodes: usize, panels: usize) -> Lent {
    let column = |at: fn(usize) -> usize| (0..nodes).map(|k| at(k) as f64).collect();
    let panels: Vec<[usize; 3]> = (0..panels).map(|i| [0, 1, 2].map(|c| i % (nodes - 2) + c)).collect();
    Lent::without_matrix([column(|k| k), column(|k| k % 2), vec![0.0; nodes]], &panels)
}

#[test]
fn limits() {
    let mut most = strip(4096, 8192);
    most.does(
        |lent| lent.save(b"as cast\0"),
        Ok(()),
        |due| due.put(0, 1, b"as cast\0"),
    );
    most.does(|lent| lent.return_to(b"as cast\0"), Err(Refusal::Output), |_| ());
    most.does(
        |lent| lent.drop(b"as cast\0"),
        Ok(()),
        |due| due.marks.lent_mut()[0] = 0,
    );
    for mut more in [strip(4097, 1), strip(4096, 8193)] {
        more.put(0, 1, b"as cast\0");
        more.refused(b"as cast\0", Refusal::TooLarge, Refusal::TooLarge, Refusal::TooLarge);
        more.refused(b"unknown ", Refusal::TooLarge, Refusal::TooLarge, Refusal::TooLarge);
    }
}

#[test]
fn a_flat_shape_is_refused() {
    let name = b"flat    ";
    // the corner of one panel put on another, or all nodes in one place
    for (nodes, [x, y]) in [(0..1, [1.0, 0.0]), (8..9, [1.0, 2.0]), (0..9, [1.0, 2.0])] {
        let mut lent = Lent::grid(3);
        lent.put(6, 1, name);
        for node in nodes {
            *lent.saved(6, node, 0) = x;
            *lent.saved(6, node, 1) = y;
        }
        lent.does(|lent| lent.return_to(name), Err(Refusal::ZeroArea), |_| ());
        lent.does(|lent| lent.save(name), Ok(()), |due| due.put_coordinates(6));
        assert_eq!(lent.returns_to(name, 6), 0);
    }
}

#[test]
fn dropping_and_saving_do_not_test_what_is_in_the_store() {
    let mut lent = Lent::grid(3);
    lent.put(6, 1, b"flat    ");
    lent.shapes
        .iter_mut()
        .for_each(|shape| shape.lent_mut().fill(f64::INFINITY));
    lent.does(
        |lent| lent.save(b"as cast\0"),
        Ok(()),
        |due| due.put(0, 1, b"as cast\0"),
    );
    lent.does(|lent| lent.drop(b"flat    "), Ok(()), |due| due.marks.lent_mut()[6] = 0);
}

#[test]
fn minus_zero_differs_from_zero() {
    for node in 0..16 {
        for axis in 0..3 {
            let mut lent = Lent::grid(4);
            lent.nodes[axis].lent_mut()[node] = 0.0;
            // the plate turned out of that axis' plane, so that no panel is flat
            let (first, second) = [(1, 2), (0, 2), (0, 1)][axis];
            for k in 0..16 {
                lent.nodes[first].lent_mut()[k] = (k % 4) as f64;
                lent.nodes[second].lent_mut()[k] = (k / 4) as f64;
            }
            lent.put(2, 1, b"as cast\0");
            *lent.saved(2, node, axis) = -0.0;
            let r = lent.ring(&[node]).into_iter().filter(|held| *held).count();
            assert_eq!(
                lent.returns_to(b"as cast\0", 2),
                2 * 16 * r - r * r,
                "node {node}, axis {axis}"
            );
            assert_eq!(lent.nodes[axis].lent()[node].to_bits(), (-0.0f64).to_bits());
            assert_eq!(lent.returns_to(b"as cast\0", 2), 0);
        }
    }
}

#[test]
fn every_nan_is_one_number() {
    let nans = [
        0x7ff8_0000_0000_0000,
        0xfff8_0000_0000_0000,
        0x7ff8_0000_0000_0001,
        0x7ff0_0000_0000_0001,
        0xffff_ffff_ffff_ffff,
    ];
    for bits in nans {
        for node in [4, 8] {
            let mut lent = Lent::grid(3);
            lent.nodes[2].lent_mut()[node] = f64::from_bits(0x7ff8_0000_0000_1234);
            lent.put(3, 1, b"as cast\0");
            *lent.saved(3, node, 2) = f64::from_bits(bits);
            // the coordinates are the shape's, with its bits; no cell is renewed
            lent.does(
                |lent| lent.return_to(b"as cast\0"),
                Ok(0),
                |due| due.nodes[2].lent_mut()[node] = f64::from_bits(bits),
            );
            // against a number it differs
            *lent.saved(3, node, 2) = 0.0;
            assert_ne!(lent.return_to(b"as cast\0"), Ok(0));
            *lent.saved(3, node, 2) = f64::from_bits(bits);
            assert_ne!(lent.return_to(b"as cast\0"), Ok(0));
        }
    }
}

#[test]
fn one_number_of_a_node_is_enough() {
    for node in 0..9 {
        for axis in 0..3 {
            let mut lent = Lent::grid(3);
            lent.put(7, 1, b"as cast\0");
            *lent.saved(7, node, axis) += 0.125;
            let r = lent.ring(&[node]).into_iter().filter(|held| *held).count();
            assert_eq!(
                lent.returns_to(b"as cast\0", 7),
                2 * 9 * r - r * r,
                "node {node}, axis {axis}"
            );
        }
    }
}

#[test]
fn a_node_on_no_panel_changes_no_cell() {
    let mut lent = Lent::new(
        [
            vec![0.0, 1.0, 0.0, 1.0, 5.0],
            vec![0.0, 0.0, 1.0, 1.0, 5.0],
            vec![0.0; 5],
        ],
        &[[0, 1, 2], [1, 3, 2]],
    );
    lent.put(0, 1, b"as cast\0");
    *lent.saved(0, 4, 0) = f64::NAN;
    *lent.saved(0, 4, 1) = -6.0;
    lent.does(
        |lent| lent.return_to(b"as cast\0"),
        Ok(0),
        |due| {
            due.nodes[0].lent_mut()[4] = f64::NAN;
            due.nodes[1].lent_mut()[4] = -6.0;
        },
    );
    *lent.saved(0, 3, 2) = 0.5;
    assert_eq!(lent.returns_to(b"as cast\0", 0), 2 * 5 * 3 - 9);
}

#[test]
fn cells_of_several_rings_are_counted_one_time() {
    let n = 25;
    for nodes in [
        vec![0, 1],
        vec![6, 7, 12],
        vec![0, 24],
        vec![12, 4, 20, 3],
        (0..n).collect(),
    ] {
        let mut lent = Lent::grid(5);
        lent.put(5, 1, b"as cast\0");
        for &node in &nodes {
            *lent.saved(5, node, 2) += 0.1 + 0.01 * node as f64;
        }
        let r = lent.ring(&nodes).into_iter().filter(|held| *held).count();
        // of a matrix of any numbers
        assert_eq!(lent.returns_to(b"as cast\0", 5), 2 * n * r - r * r, "{nodes:?}");
        let kept = lent.matrix.lent().iter().filter(|cell| **cell >= 7.0).count();
        assert_eq!(kept, (n - r) * (n - r), "{nodes:?}");
    }
}

#[test]
fn the_present_shape_renews_nothing() {
    let mut lent = Lent::grid(4);
    lent.put(5, 1, b"as cast\0");
    lent.does(|lent| lent.return_to(b"as cast\0"), Ok(0), |_| ());
}

#[test]
fn an_empty_mesh() {
    let mut lent = Lent::new([vec![], vec![], vec![]], &[]);
    lent.does(
        |lent| lent.save(b"as cast\0"),
        Ok(()),
        |due| due.put(0, 1, b"as cast\0"),
    );
    lent.does(|lent| lent.return_to(b"as cast\0"), Ok(0), |_| ());
    lent.does(
        |lent| lent.drop(b"as cast\0"),
        Ok(()),
        |due| due.marks.lent_mut()[0] = 0,
    );
    lent.does(|lent| lent.drop(b"as cast\0"), Err(Refusal::UnknownName), |_| ());
    lent.does(|lent| lent.return_to(b"as cast\0"), Err(Refusal::UnknownName), |_| ());
    lent.matrix.length = 1;
    lent.does(|lent| lent.return_to(b"as cast\0"), Err(Refusal::Output), |_| ());
    lent.shapes[1].length = 1;
    lent.refused(b"as cast\0", Refusal::Output, Refusal::Output, Refusal::Output);
}

/// A run of calls on one store, each compared with what is done by hand.
#[test]
fn any_run_of_calls() {
    let mut lent = Lent::grid(3);
    let mut word = 0x9e37_79b9_7f4a_7c15u64;
    let mut any = |below: usize| {
        word = word
            .wrapping_mul(6_364_136_223_846_793_005)
            .wrapping_add(1_442_695_040_888_963_407);
        (word >> 33) as usize % below
    };
    let mut met = std::collections::BTreeMap::new();
    for _ in 0..3000 {
        let name = [b'a' + any(11) as u8; 8];
        let holds = |p: &usize| lent.marks.lent()[*p] != 0 && lent.names.lent()[8 * p..][..8] == name;
        let held = (0..8).find(holds);
        let free = lent.marks.lent().iter().position(|mark| *mark == 0);
        *met.entry((held.is_some(), free.is_some())).or_insert(0) += 1;
        match (any(8), held, free) {
            (0 | 1, Some(place), _) => lent.does(|lent| lent.save(&name), Ok(()), |due| due.put_coordinates(place)),
            (0 | 1, None, Some(place)) => lent.does(|lent| lent.save(&name), Ok(()), |due| due.put(place, 1, &name)),
            (0 | 1, None, None) => lent.does(|lent| lent.save(&name), Err(Refusal::NoPlace), |_| ()),
            (2, Some(place), _) => lent.does(|lent| lent.drop(&name), Ok(()), |due| due.marks.lent_mut()[place] = 0),
            (2, None, _) => lent.does(|lent| lent.drop(&name), Err(Refusal::UnknownName), |_| ()),
            (3 | 4, Some(place), _) => _ = lent.returns_to(&name, place),
            (3 | 4, None, _) => lent.does(|lent| lent.return_to(&name), Err(Refusal::UnknownName), |_| ()),
            // a mark and a name by another hand
            (5, ..) => lent.put(any(8), any(256) as u8, &[b'a' + any(11) as u8; 8]),
            _ => lent.shift(any(9), [0.01, -0.01, 0.05]),
        }
    }
    assert!(met.len() == 4 && met.values().all(|count| *count > 20), "{met:?}");
}

fn fresh(mesh: &TriangleMesh, rule: QuadratureKind) -> Vec<f64> {
    let mut matrix = vec![0.0; mesh.view().nnode().pow(2)];
    triangle_mesh_inductance_matrix(&mesh.view(), rule, &mut matrix).unwrap();
    matrix
}

fn bits(numbers: &[f64]) -> Vec<u64> {
    numbers.iter().map(|x| x.to_bits()).collect()
}

/// The grid as an owned mesh.
fn owned(side: usize) -> TriangleMesh {
    let grid = Lent::grid(side);
    let [x, y, z] = grid.nodes.map(|column| column.lent().to_vec());
    let [a, b, c] = grid.panels.map(|column| column.lent().to_vec());
    TriangleMesh::new((x, y, z), (a, b, c)).unwrap()
}

#[test]
fn back_at_as_cast_after_sixty_moves() {
    for rule in QuadratureKind::ALL {
        let cast = owned(4);
        let (mut mesh, mut shapes) = (cast.clone(), Shapes::new(16));
        shapes.save(&mesh, b"as cast\0").unwrap();
        let first = fresh(&mesh, rule);
        let mut matrix = first.clone();
        for k in 0..60 {
            let by = [k % 3, k % 5, k % 7].map(|part| 0.05 * f64::from(part) - 0.1);
            let node = 7 * k as usize % 16;
            let [x, y, z] = mesh.view().node(node);
            mesh.move_node(rule, &mut matrix, node, [x + by[0], y + by[1], z + by[2]])
                .unwrap();
        }
        shapes.save(&mesh, b"bent    ").unwrap();
        let (bent, bent_matrix) = (mesh.clone(), fresh(&mesh, rule));
        assert_ne!(bits(&first), bits(&bent_matrix));
        mesh.return_to(&shapes, b"as cast\0", rule, &mut matrix).unwrap();
        assert_eq!(mesh.to_panel_file(), cast.to_panel_file(), "{rule:?}");
        assert_eq!(bits(&matrix), bits(&first), "{rule:?}");
        mesh.return_to(&shapes, b"bent    ", rule, &mut matrix).unwrap();
        assert_eq!(mesh.to_panel_file(), bent.to_panel_file(), "{rule:?}");
        assert_eq!(bits(&matrix), bits(&bent_matrix), "{rule:?}");
    }
}

#[test]
fn a_return_leaves_a_symmetric_matrix_symmetric() {
    let n = 16;
    // symmetric, and not the matrix of any mesh
    let given: Vec<f64> = (0..n * n)
        .map(|k| 7.0 + (k / n + k % n) as f64 + 0.1 * (k / n * (k % n)) as f64)
        .collect();
    for node in 0..n {
        let (mut mesh, mut shapes) = (owned(4), Shapes::new(n));
        shapes.save(&mesh, b"as cast\0").unwrap();
        let [x, y, z] = mesh.view().node(node);
        mesh.move_node(RULE, &mut given.clone(), node, [x + 0.2, y + 0.1, z - 0.3])
            .unwrap();
        let mut matrix = given.clone();
        assert!(mesh.return_to(&shapes, b"as cast\0", RULE, &mut matrix).unwrap() > 0);
        assert_ne!(bits(&matrix), bits(&given));
        let mirror: Vec<f64> = (0..n * n).map(|k| matrix[k % n * n + k / n]).collect();
        assert_eq!(bits(&matrix), bits(&mirror), "node {node}");
    }
}

#[test]
fn an_owned_mesh_counts_its_poor_panels_anew() {
    let (mut mesh, mut shapes) = (owned(2), Shapes::new(4));
    shapes.save(&mesh, b"as cast\0").unwrap();
    let mut matrix = fresh(&mesh, RULE);
    mesh.move_node(RULE, &mut matrix, 3, [0.5 + 1e-7, 0.5 + 1e-7, 0.0])
        .unwrap();
    shapes.save(&mesh, b"poor    ").unwrap();
    assert_eq!(mesh.view().poor_panels(), 1);
    mesh.return_to(&shapes, b"as cast\0", RULE, &mut matrix).unwrap();
    assert_eq!(mesh.view().poor_panels(), 0);
    mesh.return_to(&shapes, b"poor    ", RULE, &mut matrix).unwrap();
    assert_eq!(mesh.view().poor_panels(), 1);
    assert_eq!(bits(&matrix), bits(&fresh(&mesh, RULE)));
}

#[test]
fn an_owned_store_has_its_parts() {
    let (mesh, mut shapes) = (owned(2), Shapes::new(4));
    assert_eq!((shapes.marks(), shapes.name_bytes()), (&[0; 8], &[0; 64]));
    assert_eq!(shapes.columns(), (&[0.0; 32][..], &[0.0; 32][..], &[0.0; 32][..]));
    assert_eq!(shapes.names().count(), 0);
    for name in [b"as cast\0", b"bent    ", b"as drawn"] {
        shapes.save(&mesh, name).unwrap();
    }
    shapes.forget(&mesh, b"bent    ").unwrap();
    let held: Vec<(usize, u8, Name)> = shapes.names().collect();
    assert_eq!(held, [(0, 1, *b"as cast\0"), (2, 1, *b"as drawn")]);
    assert_eq!(*shapes.marks(), [1, 0, 1, 0, 0, 0, 0, 0]);
    assert_eq!(shapes.name_bytes()[..24], *b"as cast\0bent    as drawn");
    assert_eq!(shapes.columns().1[8..12], [0.0, 0.0, 1.0, 1.0]);

    let (x, y, z) = shapes.columns();
    let columns = (x.to_vec(), y.to_vec(), z.to_vec());
    let mut again = Shapes::from_parts(*shapes.marks(), *shapes.name_bytes(), columns);
    assert_eq!(again, shapes);
    again.save(&mesh, b"bent    ").unwrap();
    assert_eq!(again.names().map(|(place, _, _)| place).collect::<Vec<_>>(), [0, 1, 2]);

    let marks = [0, 7, 255, 0, 0, 0, 0, 9];
    let names = std::array::from_fn(|k| k as u8);
    let given = Shapes::from_parts(marks, names, (vec![], vec![], vec![]));
    let held: Vec<(usize, u8, Name)> = given.names().collect();
    let name = |place: u8| std::array::from_fn(|k| 8 * place + k as u8);
    assert_eq!(held, [(1, 7, name(1)), (2, 255, name(2)), (7, 9, name(7))]);
}

#[test]
fn names_from_texts() {
    assert_eq!(shape_name(""), Some([0; 8]));
    assert_eq!(shape_name("a"), Some(*b"a\0\0\0\0\0\0\0"));
    assert_eq!(shape_name("as drawn"), Some(*b"as drawn"));
    assert_eq!(shape_name("as welded"), None);
    // bytes are counted, not letters
    assert_eq!(shape_name("kühler"), Some(*b"k\xc3\xbchler\0"));
    assert_eq!(shape_name("gekühlt"), Some(*b"gek\xc3\xbchlt"));
    assert_eq!(shape_name("gekühlte"), None);
    assert_eq!(shape_name(b"\xff\0"), Some(*b"\xff\0\0\0\0\0\0\0"));
}
