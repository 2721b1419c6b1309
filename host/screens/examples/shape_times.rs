//! How long a return to a named shape takes beside a move and beside a fresh matrix, as tables:
//! `cargo run --release --example shape_times`.
//!
//! What is compared is measured in turns. The least time is shown, since others use the machine too.
use screens::*;
use std::time::Instant;

const CAST: &[u8; 8] = b"as cast\0";
const RAISED: &[u8; 8] = b"raised\0\0";

/// A plate of nodes one apart, each square split into two panels.
fn plate(columns: usize, rows: usize, height: f64) -> TriangleMesh {
    let node = |f: fn(usize, usize) -> f64| (0..columns * rows).map(move |k| f(k % columns, k / columns));
    let squares = || (0..(columns - 1) * (rows - 1)).map(move |s| s % (columns - 1) + s / (columns - 1) * columns);
    let corner = |first: usize, second: usize| squares().flat_map(|k| [k + first, k + second]).collect();
    let nodes = (
        node(|i, _| i as f64).collect(),
        node(|_, j| j as f64).collect(),
        node(|i, j| ((i * 7 + j * 3) % 5) as f64 / 16.0)
            .map(|z| z + height)
            .collect(),
    );
    TriangleMesh::new(nodes, (corner(0, 1), corner(1, columns + 1), corner(columns, columns))).unwrap()
}

/// A shape and its columns, and the store with both shapes.
struct Screen {
    panels: [Vec<usize>; 3],
    nodes: [Vec<f64>; 3],
    shapes: Shapes,
    matrix: Vec<f64>,
}

impl Screen {
    fn new(columns: usize, rows: usize) -> Self {
        let (mesh, raised) = (plate(columns, rows, 0.0), plate(columns, rows, 0.5));
        let n = columns * rows;
        let mut shapes = Shapes::new(n);
        shapes.save(&mesh, CAST).unwrap();
        shapes.save(&raised, RAISED).unwrap();
        let ((x, y, z), (a, b, c)) = (mesh.view().nodes(), mesh.view().triangles());
        Screen {
            panels: [a, b, c].map(<[usize]>::to_vec),
            nodes: [x, y, z].map(<[f64]>::to_vec),
            shapes,
            matrix: vec![0.0; n * n],
        }
    }

    /// Seconds of a move of one node.
    fn moved(&mut self, rule: QuadratureKind, node: usize, place: [f64; 3]) -> f64 {
        let ([x, y, z], [a, b, c]) = (&mut self.nodes, &self.panels);
        let start = Instant::now();
        move_node((x, y, z), (a, b, c), rule, &mut self.matrix, node, place).unwrap();
        start.elapsed().as_secs_f64()
    }

    /// Seconds of a return, and its count.
    fn returned(&mut self, rule: QuadratureKind, name: &[u8; 8]) -> (f64, usize) {
        let ([x, y, z], [a, b, c]) = (&mut self.nodes, &self.panels);
        let (marks, names, columns) = (self.shapes.marks(), self.shapes.name_bytes(), self.shapes.columns());
        let start = Instant::now();
        let count = return_shape(
            (x, y, z),
            (a, b, c),
            rule,
            &mut self.matrix,
            marks,
            names,
            columns,
            name,
        )
        .unwrap();
        (start.elapsed().as_secs_f64(), count)
    }

    /// Seconds of a fresh matrix.
    fn fresh(&mut self, rule: QuadratureKind) -> f64 {
        let ([x, y, z], [a, b, c]) = (&self.nodes, &self.panels);
        let mesh = TriangleMeshView::new((x, y, z), (a, b, c)).unwrap();
        let start = Instant::now();
        triangle_mesh_inductance_matrix(&mesh, rule, &mut self.matrix).unwrap();
        start.elapsed().as_secs_f64()
    }
}

const RULES: [(u32, QuadratureKind); 3] = [
    (1, QuadratureKind::Dunavant1),
    (3, QuadratureKind::Dunavant3),
    (5, QuadratureKind::Dunavant5),
];

fn main() {
    println!("| one node moved and back, 2,000 nodes, rule | move, ms | return, ms | return/move |\n|--:|--:|--:|--:|");
    let mut screen = Screen::new(50, 40);
    for (number, rule) in RULES {
        let (mut moving, mut returning) = (f64::INFINITY, f64::INFINITY);
        for _ in 0..15 {
            moving = moving.min(screen.moved(rule, 1020, [20.25, 20.25, 0.25]));
            returning = returning.min(screen.returned(rule, CAST).0);
        }
        println!(
            "| {number} | {:.3} | {:.3} | {:.3} |",
            moving * 1e3,
            returning * 1e3,
            returning / moving
        );
    }

    println!("\n| return to the present shape, nodes | rule | ms | cells |\n|--:|--:|--:|--:|");
    let mut screen = Screen::new(64, 64);
    for (number, rule) in RULES {
        let least = (0..30).map(|_| screen.returned(rule, CAST));
        let (seconds, count) = least.fold((f64::INFINITY, 0), |a, b| (a.0.min(b.0), b.1));
        println!("| 4096 | {number} | {:.3} | {count} |", seconds * 1e3);
    }

    println!(
        "\n| all nodes differ, nodes | rule | fresh matrix, s | return, s | return/fresh |\n|--:|--:|--:|--:|--:|"
    );
    for (columns, rows, rounds) in [(20, 15, 5), (40, 25, 3)] {
        let mut screen = Screen::new(columns, rows);
        for (number, rule) in RULES {
            let (mut fresh, mut returning) = (f64::INFINITY, f64::INFINITY);
            for _ in 0..rounds {
                for name in [RAISED, CAST] {
                    fresh = fresh.min(screen.fresh(rule));
                    let (seconds, count) = screen.returned(rule, name);
                    assert_eq!(count, (columns * rows).pow(2));
                    returning = returning.min(seconds);
                }
            }
            println!(
                "| {} | {number} | {fresh:.4} | {returning:.4} | {:.3} |",
                columns * rows,
                returning / fresh
            );
        }
    }
}
