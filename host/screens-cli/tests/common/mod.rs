//! A folder for a test, and the tool run in it.
#![allow(dead_code)] // no test uses all of it
use screens::{QuadratureKind, TriangleMesh, triangle_mesh_inductance_matrix};
use std::collections::BTreeMap;
use std::ffi::OsStr;
use std::path::{Path, PathBuf};
use std::process::{Command, Output, Stdio};

/// A new folder, with the examples and a small screen in it; removed at the end.
pub(crate) struct Folder(pub(crate) PathBuf);

impl Folder {
    pub(crate) fn new(name: &str) -> Self {
        let folder = Path::new(env!("CARGO_TARGET_TMPDIR")).join(format!("{name}-{}", std::process::id()));
        let _ = std::fs::remove_dir_all(&folder);
        std::fs::create_dir_all(&folder).unwrap();
        let examples = Path::new(env!("CARGO_MANIFEST_DIR")).join("../../examples");
        for name in ["plate.pnl", "bent.pnl", "hole.pnl"] {
            std::fs::copy(examples.join(name), folder.join(name)).unwrap();
        }
        let folder = Folder(folder);
        folder.small_screen();
        folder
    }

    /// `square.pnl`, a square metre of two panels, its nodes and panels as text in `nodes.txt` and `panels.txt`, its matrix
    /// `square.npy` under rule 3, its store `square.shapes`, nodal values in `values.txt`, and `strange.pnl`, the square with a
    /// node that is not finite, a poor panel and a node in no panel.
    fn small_screen(&self) {
        let mesh = square();
        let mut matrix = vec![0.0; 16];
        triangle_mesh_inductance_matrix(&mesh.view(), QuadratureKind::Dunavant3, &mut matrix).unwrap();
        self.put("square.pnl", &square_file());
        self.put("nodes.txt", b"# x y z\n0 0 0\n1 0 0\n0 1 0\n1 1 0\n");
        self.put("panels.txt", b"0 1 2\n1 3 2\n");
        self.put("square.npy", &npy("(4, 4)", &matrix));
        self.put("square.shapes", &square_store());
        self.put("values.txt", b"1 2 4 8 # amperes\n");
        self.put("strange.pnl", &strange().to_panel_file());
    }

    pub(crate) fn put(&self, name: &str, bytes: &[u8]) {
        std::fs::write(self.0.join(name), bytes).unwrap();
    }

    pub(crate) fn get(&self, name: &str) -> Vec<u8> {
        std::fs::read(self.0.join(name)).unwrap()
    }

    /// Every file's name and its bytes; of a file of more than a million bytes its length.
    pub(crate) fn contents(&self) -> BTreeMap<PathBuf, Vec<u8>> {
        let entries = std::fs::read_dir(&self.0).unwrap().map(|entry| entry.unwrap());
        let read = |entry: std::fs::DirEntry| {
            let data = entry.metadata().unwrap();
            let bytes = match data.is_file() && data.len() <= 1_000_000 {
                true => std::fs::read(entry.path()).unwrap(),
                false => data.len().to_string().into_bytes(),
            };
            (entry.path(), bytes)
        };
        entries.map(read).collect()
    }

    pub(crate) fn command<S: AsRef<OsStr>>(&self, words: &[S]) -> Command {
        let mut command = Command::new(env!("CARGO_BIN_EXE_screens"));
        command.args(words).current_dir(&self.0).stdin(Stdio::null());
        command
    }

    pub(crate) fn run<S: AsRef<OsStr>>(&self, words: &[S]) -> Ran {
        let Output { status, stdout, stderr } = self.command(words).output().unwrap();
        let text = |bytes: Vec<u8>| String::from_utf8_lossy(&bytes).into_owned();
        let ran = Ran {
            status: status.code(),
            out: text(stdout),
            err: text(stderr),
        };
        assert!(!ran.err.contains("panicked"), "{}", ran.err);
        ran
    }
}

impl Drop for Folder {
    fn drop(&mut self) {
        let _ = std::fs::remove_dir_all(&self.0);
    }
}

/// What the tool said.
#[derive(Debug, PartialEq)]
pub(crate) struct Ran {
    pub(crate) status: Option<i32>,
    pub(crate) out: String,
    pub(crate) err: String,
}

pub(crate) fn square() -> TriangleMesh {
    let nodes = (vec![0.0, 1.0, 0.0, 1.0], vec![0.0, 0.0, 1.0, 1.0], vec![0.0; 4]);
    TriangleMesh::new(nodes, (vec![0, 1], vec![1, 3], vec![2, 2])).unwrap()
}

/// The panel file of the square, by hand.
pub(crate) fn square_file() -> Vec<u8> {
    let (zero, one) = ([0; 8], [0, 0, 0, 0, 0, 0, 0xf0, 0x3f]);
    let nodes = [zero, zero, zero, one, zero, zero, zero, one, zero, one, one, zero];
    let panels = [0, 0, 1, 0, 2, 0, 1, 0, 3, 0, 2, 0];
    [&b"PNL\x01\x00\x04\x00\x02\x00"[..], nodes.as_flattened(), &panels].concat()
}

/// The square with its last node raised by half a metre.
pub(crate) fn raised() -> TriangleMesh {
    let nodes = (
        vec![0.0, 1.0, 0.0, 1.0],
        vec![0.0, 0.0, 1.0, 1.0],
        vec![0.0, 0.0, 0.0, 0.5],
    );
    TriangleMesh::new(nodes, (vec![0, 1], vec![1, 3], vec![2, 2])).unwrap()
}

/// A place of a store of the square: its mark, its name and its columns.
pub(crate) type Place = (u8, [u8; 8], [[f64; 4]; 3]);

pub(crate) const FREE: Place = (0, [0; 8], [[0.0; 4]; 3]);

/// The square in a place, its last node raised to z.
pub(crate) fn place(mark: u8, name: &[u8; 8], z: f64) -> Place {
    let columns = [[0.0, 1.0, 0.0, 1.0], [0.0, 0.0, 1.0, 1.0], [0.0, 0.0, 0.0, z]];
    (mark, *name, columns)
}

/// The file of a store of the square.
pub(crate) fn store(places: &[Place; 8]) -> Vec<u8> {
    let mut file = places.map(|(mark, _, _)| mark).to_vec();
    file.extend(places.iter().flat_map(|(_, name, _)| name));
    for axis in 0..3 {
        let column = places.iter().flat_map(|(_, _, columns)| columns[axis]);
        file.extend(column.flat_map(f64::to_le_bytes));
    }
    file
}

/// The places of `square.shapes`: the square as `as-cast`, with its last node raised as `raised`, and a stale name between them.
pub(crate) fn square_places() -> [Place; 8] {
    let mut places = [FREE; 8];
    places[0] = place(1, b"as-cast\0", 0.0);
    places[1] = place(0, b"raised\0\0", 9.0);
    places[2] = place(7, b"raised\0\0", 0.5);
    places
}

fn square_store() -> Vec<u8> {
    store(&square_places())
}

fn strange() -> TriangleMesh {
    let (x, y) = (
        vec![0.0, 1.0, 0.0, f64::NAN, 0.5, 9.0],
        vec![0.0, 0.0, 1.0, 1.0, 1e-7, 0.0],
    );
    TriangleMesh::new((x, y, vec![0.0; 6]), (vec![0, 1, 0], vec![1, 3, 1], vec![2, 2, 4])).unwrap()
}

/// A NumPy file of float64 of version 1 with a shape.
pub(crate) fn npy(shape: &str, numbers: &[f64]) -> Vec<u8> {
    npy_of("<f8", "False", shape, numbers.iter().map(|x| x.to_le_bytes()))
}

/// The same of int64.
pub(crate) fn npy_whole(shape: &str, numbers: &[i64]) -> Vec<u8> {
    npy_of("<i8", "False", shape, numbers.iter().map(|x| x.to_le_bytes()))
}

/// A NumPy file with any entries.
pub(crate) fn npy_of(descr: &str, fortran: &str, shape: &str, numbers: impl Iterator<Item = [u8; 8]>) -> Vec<u8> {
    let text = format!("{{'descr': '{descr}', 'fortran_order': {fortran}, 'shape': {shape}, }}");
    let text = format!("{text:<117}\n");
    let mut file = b"\x93NUMPY\x01\x00\x76\x00".to_vec();
    file.extend(text.bytes());
    file.extend(numbers.flatten());
    file
}
