//! The calls on threads with 2 MB of stack: meshes as large as they may be, and many threads at once.
use screens::*;
use std::path::Path;
use std::thread::Builder;

const STACK: usize = 2 << 20;

fn on_small_stack(work: impl FnOnce() + Send + 'static) {
    let thread = Builder::new().stack_size(STACK).spawn(work).unwrap();
    thread.join().unwrap();
}

/// 64 × 64 nodes, a metre apart, and some panels on them.
fn on_grid(panels: &[[usize; 3]]) -> TriangleMesh {
    let x = (0..4096).map(|i| f64::from(i % 64)).collect();
    let y = (0..4096).map(|i| f64::from(i / 64)).collect();
    let corner = |c: usize| panels.iter().map(|panel| panel[c]).collect();
    TriangleMesh::new((x, y, vec![0.0; 4096]), (corner(0), corner(1), corner(2))).unwrap()
}

/// The two panels of the square whose first node is k.
fn square(k: usize) -> [[usize; 3]; 2] {
    [[k, k + 1, k + 64], [k + 1, k + 65, k + 64]]
}

#[test]
fn matrix_and_move_of_the_largest_mesh() {
    on_small_stack(|| {
        // most nodes are in no panel, so that the matrix is made in no time
        let mut mesh = on_grid(&square(0));
        let mut matrix = vec![0.0; 4096 * 4096];
        triangle_mesh_inductance_matrix(&mesh.view(), QuadratureKind::Dunavant5, &mut matrix).unwrap();
        let count = mesh
            .move_node(QuadratureKind::Dunavant5, &mut matrix, 65, [1.5, 1.5, 0.5])
            .unwrap();
        assert_eq!(
            count,
            2 * 4096 * 3 - 9,
            "the ring of node 65 is its one panel's three nodes"
        );
        let mut fresh = vec![0.0; 4096 * 4096];
        triangle_mesh_inductance_matrix(&mesh.view(), QuadratureKind::Dunavant5, &mut fresh).unwrap();
        assert!(matrix == fresh);
        assert!(triangle_mesh_inductive_energy(&matrix, &vec![1.0; 4096]).is_ok());
        assert_eq!(TriangleMesh::from_panel_file(&mesh.to_panel_file()), Ok(mesh));
    });
}

#[test]
fn move_on_the_most_panels() {
    on_small_stack(|| {
        let squares = (0..63).flat_map(|j| (0..63).map(move |i| 64 * j + i));
        let panels: Vec<[usize; 3]> = squares.flat_map(square).collect();
        let mut mesh = on_grid(&panels);
        assert_eq!(mesh.view().len(), 7938);
        // a cell outside the ring's rows and columns keeps whatever it holds
        let mut matrix = vec![7.0; 4096 * 4096];
        let count = mesh
            .move_node(QuadratureKind::Dunavant1, &mut matrix, 0, [-0.5, -0.5, 0.5])
            .unwrap();
        assert_eq!(
            count,
            2 * 4096 * 3 - 9,
            "the ring of a corner of the plate is its one panel's three nodes"
        );
        assert_eq!(matrix.iter().filter(|cell| **cell == 7.0).count(), 4096 * 4096 - count);
    });
}

#[test]
fn return_of_the_largest_mesh() {
    on_small_stack(|| {
        let squares = (0..63).flat_map(|j| (0..63).map(move |i| 64 * j + i));
        let mut panels: Vec<[usize; 3]> = squares.flat_map(square).collect();
        panels.extend_from_within(..8192 - 7938);
        let (mut mesh, mut shapes) = (on_grid(&panels), Shapes::new(4096));
        shapes.save(&mesh, b"as cast\0").unwrap();
        let mut matrix = vec![7.0; 4096 * 4096];
        let rule = QuadratureKind::Dunavant1;
        mesh.move_node(rule, &mut matrix, 4095, [63.5, 63.5, 0.5]).unwrap();
        matrix.fill(7.0);
        let count = mesh.return_to(&shapes, b"as cast\0", rule, &mut matrix).unwrap();
        assert_eq!(
            count,
            2 * 4096 * 3 - 9,
            "the ring of a corner of the plate is its one panel's three nodes"
        );
        assert_eq!(mesh, on_grid(&panels));
        assert_eq!(matrix.iter().filter(|cell| **cell == 7.0).count(), 4096 * 4096 - count);
        assert_eq!(mesh.return_to(&shapes, b"as cast\0", rule, &mut matrix), Ok(0));
    });
}

#[test]
fn many_threads_at_once() {
    let file = std::fs::read(Path::new(env!("CARGO_MANIFEST_DIR")).join("../../examples/hole.pnl")).unwrap();
    let matrix = move || {
        let mesh = TriangleMesh::from_panel_file(&file).unwrap();
        let mut matrix = vec![0.0; mesh.view().nnode() * mesh.view().nnode()];
        triangle_mesh_inductance_matrix(&mesh.view(), QuadratureKind::Dunavant1, &mut matrix).unwrap();
        matrix
    };
    let threads: Vec<_> = (0..4)
        .map(|_| Builder::new().stack_size(STACK).spawn(matrix.clone()).unwrap())
        .collect();
    let due = matrix();
    for thread in threads {
        assert!(thread.join().unwrap() == due);
    }
}
