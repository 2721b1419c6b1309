//! How much stack the calls take, as rows of a table: `cargo run --release --example footprint`.
//!
//! A call runs in a process of its own on threads with less and less stack; the least on which it ends is shown. The smallest
//! stack that a thread can have is 16 kB, and what the thread itself needs is part of it.
use screens::*;
use std::process::{Command, Stdio};
use std::thread::Builder;

const RULE: QuadratureKind = QuadratureKind::Dunavant5;
const PAGE: usize = 4096;
/// The smallest stack of a thread, in pages.
const SMALLEST: usize = 4;
/// A call with what it is lent, ready to run.
type Work = Box<dyn FnOnce() + Send>;
#[allow(clippy::type_complexity)]
const CALLS: [(&str, fn() -> Work); 10] = [
    ("mesh test, 4,096 nodes, 7,938 panels", || {
        let mesh = plate(64, 64);
        Box::new(move || assert!(TriangleMeshView::new(mesh.view().nodes(), mesh.view().triangles()).is_ok()))
    }),
    ("panel file read, 4,096 nodes, 7,938 panels", || {
        let file = plate(64, 64).to_panel_file();
        Box::new(move || assert!(TriangleMesh::from_panel_file(&file).is_ok()))
    }),
    ("panel file written, 4,096 nodes, 7,938 panels", || {
        let (mesh, mut file) = (plate(64, 64), vec![0; panel_file_length(4096, 7938)]);
        Box::new(move || assert!(write_panel_file(&mesh.view(), &mut file).is_ok()))
    }),
    ("matrix, 300 nodes, rule 5", || {
        let (mesh, mut matrix) = (plate(20, 15), vec![1.0; 300 * 300]);
        Box::new(move || assert!(triangle_mesh_inductance_matrix(&mesh.view(), RULE, &mut matrix).is_ok()))
    }),
    ("move of a node, 300 nodes, rule 5", || {
        let (mut mesh, mut matrix) = (plate(20, 15), vec![1.0; 300 * 300]);
        Box::new(move || assert!(mesh.move_node(RULE, &mut matrix, 150, [0.5, 7.0, 1.0]).is_ok()))
    }),
    ("move of a node, 4,096 nodes, rule 1", || {
        let (mut mesh, mut matrix) = (plate(64, 64), vec![1.0; 4096 * 4096]);
        let rule = QuadratureKind::Dunavant1;
        Box::new(move || assert!(mesh.move_node(rule, &mut matrix, 0, [-0.5, -0.5, 0.5]).is_ok()))
    }),
    ("save of a shape, 4,096 nodes", || {
        let (mesh, mut shapes) = (plate(64, 64), Shapes::new(4096));
        Box::new(move || assert!(shapes.save(&mesh, b"as cast\0").is_ok()))
    }),
    ("return to a shape, 300 nodes, rule 5, all nodes differ", || {
        let (mut mesh, raised, mut matrix) = (plate(20, 15), plate_at(20, 15, 1.0), vec![1.0; 300 * 300]);
        let mut shapes = Shapes::new(300);
        shapes.save(&raised, b"as cast\0").unwrap();
        Box::new(move || assert!(mesh.return_to(&shapes, b"as cast\0", RULE, &mut matrix).is_ok()))
    }),
    ("return to a shape, 4,096 nodes, rule 1, one node differs", || {
        let (mut mesh, mut shapes, mut matrix) = (plate(64, 64), Shapes::new(4096), vec![1.0; 4096 * 4096]);
        let rule = QuadratureKind::Dunavant1;
        shapes.save(&mesh, b"as cast\0").unwrap();
        mesh.move_node(rule, &mut matrix, 0, [-0.5, -0.5, 0.5]).unwrap();
        Box::new(move || assert!(mesh.return_to(&shapes, b"as cast\0", rule, &mut matrix).is_ok()))
    }),
    ("energy, 300 nodes", || {
        let (matrix, values) = (vec![1.0; 300 * 300], vec![1.0; 300]);
        Box::new(move || assert!(triangle_mesh_inductive_energy(&matrix, &values).is_ok()))
    }),
];

/// A flat plate of so many nodes by so many.
fn plate(width: usize, height: usize) -> TriangleMesh {
    plate_at(width, height, 0.0)
}

/// The same at a height over the ground.
fn plate_at(width: usize, height: usize, z: f64) -> TriangleMesh {
    let places = || (0..height).flat_map(|j| (0..width).map(move |i| (i as f64, j as f64)));
    let corners = (0..height - 1).flat_map(|j| (0..width - 1).map(move |i| j * width + i));
    let panels: Vec<[usize; 3]> = corners
        .flat_map(|k| [[k, k + 1, k + width], [k + 1, k + width + 1, k + width]])
        .collect();
    let column = |c: usize| panels.iter().map(|panel| panel[c]).collect();
    let nodes = (
        places().map(|p| p.0).collect(),
        places().map(|p| p.1).collect(),
        vec![z; width * height],
    );
    TriangleMesh::new(nodes, (column(0), column(1), column(2))).unwrap()
}

/// Whether a call ends on a thread of so many pages of stack: a process that runs out of stack is killed.
fn ends(call: usize, pages: usize) -> bool {
    let program = std::env::current_exe().unwrap();
    let words = [call.to_string(), pages.to_string()];
    let status = Command::new(program).args(words).stderr(Stdio::null()).status();
    status.unwrap().success()
}

/// The least number of pages on which a call ends.
fn least(call: usize) -> usize {
    let (mut low, mut high) = (SMALLEST - 1, 512);
    assert!(ends(call, high), "2 MB of stack");
    while low + 1 < high {
        let middle = (low + high) / 2;
        if ends(call, middle) {
            high = middle
        } else {
            low = middle
        }
    }
    high
}

fn main() {
    let words: Vec<usize> = std::env::args().skip(1).map(|word| word.parse().unwrap()).collect();
    if let [call, pages] = words[..] {
        let thread = Builder::new().stack_size(pages * PAGE).spawn(CALLS[call].1());
        return thread.unwrap().join().unwrap();
    }
    println!("| call | least stack of a thread, kB |\n|---|--:|");
    for (call, (name, _)) in CALLS.iter().enumerate() {
        println!("| {name} | {} |", least(call) * PAGE / 1024);
    }
}
