//! The panel file, read and written. What is accepted also goes back by the other call: a file that was written is read, and a
//! mesh that was read is written.
use crate::calls::view;
use crate::lent::{Lent, written};
use cases::{In, Mesh, Out, canonical};

/// Appended to the results, which then differ from the oracle's: the way back does not end where the case began.
const NOT_GIVEN_BACK: u64 = 0x0b5c_ba5e_0b5c_ba5e;

/// The reader's case.
pub(crate) fn read_file(i: &mut In<'_>, o: Out) -> Out {
    let file = i.bytes();
    let (o, mesh) = read(o, &file, i.lengths());
    given_back(o, mesh.is_none_or(|mesh| writes_as(&mesh, &file)))
}

/// The writer's case.
pub(crate) fn write_file(i: &mut In<'_>, o: Out) -> Out {
    let mesh = i.mesh();
    let (o, file) = write(o, &mesh, i.size());
    given_back(o, file.is_none_or(|file| reads_as(&file, &mesh)))
}

fn given_back(o: Out, holds: bool) -> Out {
    if holds { o } else { o.word(NOT_GIVEN_BACK) }
}

/// What the reader answers, and the mesh with the bits that it gave.
fn read(o: Out, file: &[u8], lengths: [usize; 6]) -> (Out, Option<Mesh>) {
    let [x, y, z, a, b, c] = lengths;
    let ([mut x, mut y, mut z], [mut a, mut b, mut c]) = ([x, y, z].map(Lent::new), [a, b, c].map(Lent::new));
    let nodes = (x.lend(), y.lend(), z.lend());
    let answer = screens::read_panel_file(file, nodes, (a.lend(), b.lend(), c.lend()));
    let o = written(o, answer, &[&x, &y, &z, &a, &b, &c]);
    let [x, y, z] = [&x, &y, &z].map(|column| column.left().to_vec());
    let [a, b, c] = [&a, &b, &c].map(|column| column.left().to_vec());
    (o, answer.ok().map(|()| Mesh { x, y, z, a, b, c }))
}

/// What the writer answers, and the file.
fn write(o: Out, mesh: &Mesh, length: usize) -> (Out, Option<Vec<u8>>) {
    let mut file = Lent::new(length);
    let answer = view(mesh).and_then(|mesh| screens::write_panel_file(&mesh, file.lend()));
    let o = written(o, answer, &[&file]);
    (o, answer.ok().map(|()| file.left().to_vec()))
}

/// Whether the file is read as this mesh: each coordinate's bits, NaN as one number, and each index.
fn reads_as(file: &[u8], mesh: &Mesh) -> bool {
    let (n, p) = (mesh.nodes(), mesh.panels());
    let (got, _) = read(Out::default(), file, [n, n, n, p, p, p]);
    got.0 == Out::default().word(0).columns(mesh).0
}

/// Whether the mesh is written as this file, byte by byte, but with every NaN as 7ff8000000000000.
fn writes_as(mesh: &Mesh, file: &[u8]) -> bool {
    let mut due = file.to_vec();
    for number in due[9..9 + 24 * mesh.nodes()].as_chunks_mut().0 {
        *number = canonical(f64::from_le_bytes(*number)).to_le_bytes();
    }
    let (got, _) = write(Out::default(), mesh, file.len());
    got.0 == Out::default().word(0).bytes(&due).0
}

#[cfg(test)]
mod tests {
    use super::*;

    /// One panel whose node 1 has a NaN for x, and its file.
    fn panel_and_file() -> (Mesh, Vec<u8>) {
        let mesh = Mesh::of_panel([[-0.0, 0.0, 0.5], [f64::NAN, 0.0, 0.0], [0.0, 1.0, 0.0]]);
        let mut file = b"PNL\x01\0\x03\0\x01\0".to_vec();
        for bits in [1 << 63, 0, 0x3fe << 52, 0x7ff8 << 48, 0, 0, 0, 0x3ff << 52, 0u64] {
            file.extend(bits.to_le_bytes());
        }
        file.extend([0, 0, 1, 0, 2, 0]);
        (mesh, file)
    }

    #[test]
    fn a_mesh_and_its_file_are_given_back() {
        let (mesh, file) = panel_and_file();
        assert!(reads_as(&file, &mesh) && writes_as(&mesh, &file));
        let case = Out::default().mesh(&mesh).size(file.len()).0;
        let due = Out::default().word(0).bytes(&file).0;
        assert_eq!(write_file(&mut In::new(&case), Out::default()).0, due);
    }

    #[test]
    fn another_nan_is_the_same_number() {
        let (mut mesh, mut file) = panel_and_file();
        file[9 + 24 + 7] ^= 0x80;
        mesh.x[1] = f64::from_bits(0x7ff0_0000_0000_0001);
        assert!(reads_as(&file, &mesh) && writes_as(&mesh, &file));
    }

    #[test]
    fn what_is_not_given_back_is_seen() {
        let (mesh, file) = panel_and_file();
        // the sign of -0, the lowest bit of a coordinate, an index
        for (place, bit) in [(9 + 7, 0x80), (9 + 16, 1), (9 + 72 + 4, 2)] {
            let mut other = file.clone();
            other[place] ^= bit;
            assert!(!reads_as(&other, &mesh) && !writes_as(&mesh, &other), "{place}");
        }
        assert_eq!(given_back(Out::default().word(0), false).0, [0, NOT_GIVEN_BACK]);
        assert_eq!(given_back(Out::default().word(0), true).0, [0]);
    }
}
