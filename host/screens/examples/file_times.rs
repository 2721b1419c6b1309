//! How long reading and writing the largest panel file take, as a table: `cargo run --release --example file_times`.
//!
//! Both are measured in turns. The least time is shown, since others use the machine too.
use screens::mesh::{MAX_NODES, MAX_PANELS};
use screens::*;
use std::time::Instant;

const ROUNDS: usize = 40;
const CALLS: u32 = 10;

/// A strip of nodes with a panel for every three in a row, as many of both as there may be.
fn strip() -> TriangleMesh {
    let number = |k: usize| k as f64 / 7.0;
    let nodes = (
        (0..MAX_NODES).map(number).collect(),
        (0..MAX_NODES).map(|k| number(k % 2)).collect(),
        (0..MAX_NODES).map(|k| number(k % 11)).collect(),
    );
    let corner = |c: usize| (0..MAX_PANELS).map(|i| i % (MAX_NODES - 2) + c).collect();
    TriangleMesh::new(nodes, (corner(0), corner(1), corner(2))).unwrap()
}

/// Milliseconds a call.
fn milliseconds(mut call: impl FnMut()) -> f64 {
    let start = Instant::now();
    (0..CALLS).for_each(|_| call());
    start.elapsed().as_secs_f64() * 1e3 / f64::from(CALLS)
}

fn main() {
    let mesh = strip();
    let mut file = vec![0; panel_file_length(MAX_NODES, MAX_PANELS)];
    let [mut x, mut y, mut z] = [(); 3].map(|()| vec![0.0; MAX_NODES]);
    let [mut a, mut b, mut c] = [(); 3].map(|()| vec![0; MAX_PANELS]);
    let (mut read, mut written) = (f64::INFINITY, f64::INFINITY);
    for _ in 0..ROUNDS {
        written = written.min(milliseconds(|| write_panel_file(&mesh.view(), &mut file).unwrap()));
        read = read.min(milliseconds(|| {
            read_panel_file(&file, (&mut x, &mut y, &mut z), (&mut a, &mut b, &mut c)).unwrap()
        }));
    }
    assert!(mesh.view().nodes() == (&x, &y, &z) && mesh.view().triangles() == (&a, &b, &c));
    println!("| nodes | panels | bytes | read, ms | write, ms | write/read |\n|--:|--:|--:|--:|--:|--:|");
    println!(
        "| {MAX_NODES} | {MAX_PANELS} | {} | {read:.3} | {written:.3} | {:.2} |",
        file.len(),
        written / read
    );
}
