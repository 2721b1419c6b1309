//! Below its diagonal the matrix is a copy of what stands above, and a move leaves a symmetric matrix symmetric: all in bits.
use screens::*;
use std::path::Path;

const RULE: QuadratureKind = QuadratureKind::Dunavant3;

/// Nodes (i, j, 0) for i and j below `side`, node i + side × j, each square cut into the panels k, k + 1, k + side and
/// k + 1, k + side + 1, k + side.
fn grid(side: usize) -> TriangleMesh {
    let nodes = side * side;
    let x = (0..nodes).map(|k| (k % side) as f64).collect();
    let y = (0..nodes).map(|k| (k / side) as f64).collect();
    let squares = (0..nodes - side).filter(|k| k % side < side - 1);
    let panels: Vec<[usize; 3]> = squares
        .flat_map(|k| [[k, k + 1, k + side], [k + 1, k + side + 1, k + side]])
        .collect();
    let corner = |c: usize| panels.iter().map(|panel| panel[c]).collect();
    TriangleMesh::new((x, y, vec![0.0; nodes]), (corner(0), corner(1), corner(2))).unwrap()
}

fn fresh(mesh: &TriangleMesh, rule: QuadratureKind) -> Vec<f64> {
    let mut matrix = vec![0.0; mesh.view().nnode().pow(2)];
    triangle_mesh_inductance_matrix(&mesh.view(), rule, &mut matrix).unwrap();
    matrix
}

fn bits(matrix: &[f64]) -> Vec<u64> {
    matrix.iter().map(|cell| cell.to_bits()).collect()
}

fn is_symmetric(matrix: &[f64], n: usize) -> bool {
    let cells = bits(matrix);
    (0..n).all(|a| (0..a).all(|b| cells[a * n + b] == cells[b * n + a]))
}

/// Which nodes are in a panel with the node.
fn ring(mesh: &TriangleMesh, node: usize) -> Vec<bool> {
    let panels = (0..mesh.view().len()).map(|i| mesh.view().triangle_indices(i));
    let around: Vec<usize> = panels.filter(|panel| panel.contains(&node)).flatten().collect();
    (0..mesh.view().nnode()).map(|k| around.contains(&k)).collect()
}

/// Moves a node by a step.
fn step(mesh: &mut TriangleMesh, rule: QuadratureKind, matrix: &mut [f64], node: usize, by: [f64; 3]) -> usize {
    let [x, y, z] = mesh.view().node(node);
    let place = [x + by[0], y + by[1], z + by[2]];
    mesh.move_node(rule, matrix, node, place).unwrap()
}

#[test]
fn the_two_cells_of_a_shared_edge_are_alike() {
    for rule in QuadratureKind::ALL {
        let matrix = fresh(&grid(3), rule);
        assert_eq!(matrix[9 + 4].to_bits(), 0xbe81_44fc_f44d_1fe8, "{rule:?}, (1, 4)");
        assert_eq!(matrix[4 * 9 + 1].to_bits(), 0xbe81_44fc_f44d_1fe8, "{rule:?}, (4, 1)");
        assert!(is_symmetric(&matrix, 9), "{rule:?}");
    }
}

#[test]
fn the_examples_have_symmetric_matrices() {
    let examples = Path::new(env!("CARGO_MANIFEST_DIR")).join("../../examples");
    for name in ["plate.pnl", "bent.pnl", "hole.pnl"] {
        let mesh = TriangleMesh::from_panel_file(&std::fs::read(examples.join(name)).unwrap()).unwrap();
        assert!(
            is_symmetric(&fresh(&mesh, QuadratureKind::Dunavant1), mesh.view().nnode()),
            "{name}"
        );
    }
}

#[test]
fn a_move_renews_named_cells_and_keeps_each_other_number() {
    let n = 16;
    let given: Vec<f64> = (0..n * n).map(|k| 7.0 + k as f64).collect();
    for node in 0..n {
        let mut mesh = grid(4);
        let ring = ring(&mesh, node);
        let mut matrix = given.clone();
        let count = step(&mut mesh, RULE, &mut matrix, node, [0.1, -0.2, 0.3]);
        let r = ring.iter().filter(|held| **held).count();
        assert_eq!(count, 2 * n * r - r * r, "node {node}");
        let fresh = fresh(&mesh, RULE);
        for k in 0..n * n {
            let (a, b) = (k / n, k % n);
            let named = ring[a] || ring[b];
            let due = if named { fresh[k] } else { given[k] };
            assert_eq!(matrix[k].to_bits(), due.to_bits(), "node {node}, cell ({a}, {b})");
            let alike = matrix[k].to_bits() == matrix[b * n + a].to_bits();
            assert_eq!(alike, named || a == b, "node {node}, cell ({a}, {b})");
        }
    }
}

#[test]
fn a_move_leaves_a_symmetric_matrix_symmetric() {
    let n = 16;
    // symmetric, and not the matrix of the mesh
    let given: Vec<f64> = (0..n * n)
        .map(|k| 7.0 + (k / n).min(k % n) as f64 + 0.1 * (k / n).max(k % n) as f64)
        .collect();
    for node in 0..n {
        let mut mesh = grid(4);
        let mut matrix = given.clone();
        step(&mut mesh, RULE, &mut matrix, node, [0.2, 0.1, -0.3]);
        assert!(is_symmetric(&matrix, n), "node {node}");
        let kept = matrix.iter().zip(&given).filter(|(now, before)| now == before).count();
        let outside = ring(&mesh, node).iter().filter(|held| !**held).count();
        assert_eq!(kept, outside * outside, "node {node}");
    }
}

#[test]
fn sixty_moves_end_in_the_fresh_matrix() {
    for rule in QuadratureKind::ALL {
        let mut mesh = grid(4);
        let mut matrix = fresh(&mesh, rule);
        for k in 0..60 {
            let by = [k % 3, k % 5, k % 7].map(|part| 0.05 * f64::from(part) - 0.1);
            step(&mut mesh, rule, &mut matrix, 7 * k as usize % 16, by);
            assert!(is_symmetric(&matrix, 16), "{rule:?}, after move {k}");
        }
        assert_eq!(bits(&matrix), bits(&fresh(&mesh, rule)), "{rule:?}");
    }
}

#[test]
fn energies_sum_every_cell_of_any_matrix() {
    let matrix = [1.0, 2.0, 3.0, 4.0];
    assert_eq!(triangle_mesh_inductive_energy(&matrix, &[1.0, 1.0]), Ok(5.0));
    let between = |s: [f64; 2], t: [f64; 2]| triangle_mesh_inductance_from_potential_vectors(&matrix, &s, &t);
    assert_eq!(between([1.0, 1.0], [1.0, 1.0]), Ok(10.0));
    assert_eq!(between([1.0, 0.0], [0.0, 1.0]), Ok(2.0));
    assert_eq!(between([0.0, 1.0], [1.0, 0.0]), Ok(3.0));
}
