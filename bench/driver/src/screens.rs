//! Fresh matrices and moves of whole screens: ours beside the original, every cell on and above the diagonal compared in bits, and
//! every cell below it with the one that it is a copy of. Quadrature points: ours alone, for two states of it.
use crate::loops::{Columns, Matrix};
use crate::now;
use crate::rng::Rng;

/// Declares functions of the C interface over a mesh: the rule, six columns with their lengths, of which the coordinates may be
/// written, and what else each takes.
macro_rules! over_a_mesh {
    ($($name:ident($coordinates:ty; $($more:ty),*))*) => {
        unsafe extern "C" {
            $(fn $name(
                rule: u32,
                x: $coordinates,
                x_length: usize,
                y: $coordinates,
                y_length: usize,
                z: $coordinates,
                z_length: usize,
                t0: *const usize,
                t0_length: usize,
                t1: *const usize,
                t1_length: usize,
                t2: *const usize,
                t2_length: usize,
                $(_: $more),*
            ) -> u32;)*
        }
    };
}

over_a_mesh! {
    screens_mesh_inductance_matrix(*const f64; *mut f64, usize)
    screens_move_node(*mut f64; *mut f64, usize, usize, f64, f64, f64, *mut usize)
    screens_mesh_quadrature_points(*const f64; *mut f64, usize, *mut f64, usize, *mut f64, usize, *mut f64, usize)
}

#[derive(Clone)]
pub struct Screen {
    nodes: [Vec<f64>; 3],
    panels: [Vec<usize>; 3],
}

impl Screen {
    /// A plate of width × height nodes, each a little off its place in the plane; bent along x if `bent`.
    fn new(width: usize, height: usize, bent: bool) -> Screen {
        let mut r = Rng(5);
        let (mut nodes, mut panels) = ([vec![], vec![], vec![]], [vec![], vec![], vec![]]);
        for j in 0..height {
            for i in 0..width {
                let x = i as f64 + 0.2 * r.signed();
                nodes[0].push(x);
                nodes[1].push(j as f64 + 0.2 * r.signed());
                nodes[2].push(if bent { 0.05 * x * x } else { 0.0 });
            }
        }
        for j in 0..height - 1 {
            for i in 0..width - 1 {
                let k = j * width + i;
                for triple in [[k, k + 1, k + width], [k + 1, k + width + 1, k + width]] {
                    for (column, node) in panels.iter_mut().zip(triple) {
                        column.push(node);
                    }
                }
            }
        }
        Screen { nodes, panels }
    }

    fn count(&self) -> usize {
        self.nodes[0].len()
    }

    fn ours(&self, rule: u32, out: &mut [f64]) {
        let (n, p) = (self.count(), self.panels[0].len());
        let [x, y, z] = self.nodes.each_ref().map(|c| c.as_ptr());
        let [a, b, c] = self.panels.each_ref().map(|c| c.as_ptr());
        let number = unsafe {
            screens_mesh_inductance_matrix(rule, x, n, y, n, z, n, a, p, b, p, c, p, out.as_mut_ptr(), out.len())
        };
        assert_eq!(number, 0);
    }

    fn original(&self, run: Matrix, rule: u32, out: &mut [f64]) {
        let columns = Columns {
            nodes: self.nodes.each_ref().map(|c| c.as_ptr()),
            node_count: self.count(),
            panels: self.panels.each_ref().map(|c| c.as_ptr()),
            panel_count: self.panels[0].len(),
        };
        assert!(unsafe { run(rule, &columns, out.as_mut_ptr()) });
    }

    /// Our move; the count of the cells that were renewed.
    fn move_node(&mut self, rule: u32, matrix: &mut [f64], node: usize, place: [f64; 3]) -> usize {
        let (n, p) = (self.count(), self.panels[0].len());
        let [x, y, z] = self.nodes.each_mut().map(|c| c.as_mut_ptr());
        let [a, b, c] = self.panels.each_ref().map(|c| c.as_ptr());
        let mut count = 0;
        let number = unsafe {
            screens_move_node(
                rule,
                x,
                n,
                y,
                n,
                z,
                n,
                a,
                p,
                b,
                p,
                c,
                p,
                matrix.as_mut_ptr(),
                matrix.len(),
                node,
                place[0],
                place[1],
                place[2],
                &mut count,
            )
        };
        assert_eq!(number, 0);
        count
    }

    /// Our quadrature points and their weights.
    fn points(&self, rule: u32, out: &mut [Vec<f64>; 4]) {
        let (n, p, m) = (self.count(), self.panels[0].len(), out[0].len());
        let [x, y, z] = self.nodes.each_ref().map(|c| c.as_ptr());
        let [a, b, c] = self.panels.each_ref().map(|c| c.as_ptr());
        let [px, py, pz, weights] = out.each_mut().map(|c| c.as_mut_ptr());
        let number = unsafe {
            screens_mesh_quadrature_points(
                rule, x, n, y, n, z, n, a, p, b, p, c, p, px, m, py, m, pz, m, weights, m,
            )
        };
        assert_eq!(number, 0);
    }

    /// How many cells a move of the node renews, counted one by one.
    fn named(&self, node: usize) -> usize {
        let n = self.count();
        let mut ring = vec![false; n];
        for p in 0..self.panels[0].len() {
            let corners = self.panels.each_ref().map(|c| c[p]);
            if corners.contains(&node) {
                corners.into_iter().for_each(|k| ring[k] = true);
            }
        }
        (0..n * n).filter(|k| ring[k / n] || ring[k % n]).count()
    }
}

/// In bits, every NaN as one number.
fn unequal(a: f64, b: f64) -> bool {
    a.to_bits() != b.to_bits() && !(a.is_nan() && b.is_nan())
}

fn differing(a: &[f64], b: &[f64]) -> usize {
    a.iter().zip(b).filter(|(a, b)| unequal(**a, **b)).count()
}

/// How many of our n by n cells are not those due: the original's on and above the diagonal, below it the copy of ours above.
fn cells_differing(ours: &[f64], original: &[f64], n: usize) -> usize {
    let due = |row: usize, column: usize| match column < row {
        true => ours[column * n + row],
        false => original[row * n + column],
    };
    (0..n * n).filter(|k| unequal(ours[*k], due(k / n, k % n))).count()
}

pub fn timed(run: impl FnOnce()) -> f64 {
    let start = now();
    run();
    now() - start
}

const SIZES: [(usize, usize); 4] = [(20, 15), (40, 25), (50, 40), (64, 64)];

/// The middle of some times.
fn median(times: &mut [f64]) -> f64 {
    times.sort_by(f64::total_cmp);
    times[times.len() / 2]
}

/// One line of the table: ours, the two builds of the original and our move, each measured `rounds` times in turn.
struct Measured {
    ours: f64,
    portable: f64,
    native: f64,
    moved: f64,
    spread: f64,
    differ: usize,
}

fn measure(screen: &Screen, rule: u32, builds: [Matrix; 2], node: usize, rounds: usize) -> Measured {
    let n = screen.count();
    let (mut ours, mut due) = (vec![f64::NAN; n * n], vec![f64::NAN; n * n]);
    let mut times: [Vec<f64>; 4] = Default::default();
    let mut differ = 0;
    for _ in 0..rounds {
        times[0].push(timed(|| screen.ours(rule, &mut ours)));
        for (run, list) in builds.into_iter().zip([1, 2]) {
            times[list].push(timed(|| screen.original(run, rule, &mut due)));
            differ += cells_differing(&ours, &due, n);
        }
        let mut moved = screen.clone();
        let [x, y, z] = moved.nodes.each_ref().map(|c| c[node]);
        times[3].push(timed(|| {
            moved.move_node(rule, &mut ours, node, [x + 0.1, y - 0.1, z + 0.05]);
        }));
        moved.original(builds[1], rule, &mut due);
        differ += cells_differing(&ours, &due, n);
    }
    let [ours, portable, native, moved] = times.each_mut().map(|list| median(list));
    let spread = times[..3]
        .iter()
        .map(|t| (t[t.len() - 1] - t[0]) / t[0])
        .fold(0.0, f64::max);
    Measured {
        ours,
        portable,
        native,
        moved,
        spread,
        differ,
    }
}

/// The exponent of n in times that grow as a power of it: the least squares of the logarithms.
fn exponent(points: &[(f64, f64)]) -> f64 {
    let k = points.len() as f64;
    let (x, y) = points
        .iter()
        .fold((0.0, 0.0), |(a, b), (n, t)| (a + n.ln() / k, b + t.ln() / k));
    let (up, down) = points.iter().fold((0.0, 0.0), |(a, b), (n, t)| {
        let d = n.ln() - x;
        (a + d * (t.ln() - y), b + d * d)
    });
    up / down
}

/// Seconds of thread time for a fresh matrix and for a move of a node in the middle, medians of some rounds, and the exponents
/// of their growth with the number of nodes.
pub fn table(portable: Matrix, native: Matrix, rules: &[u32], sizes: usize, rounds: usize) {
    println!(
        "| screen | rule | ours, s | Rust portable, s | Rust native, s | ours/portable | ours/native | our move, s | move/portable | move/native | spread | cells differ |"
    );
    println!("|---|--:|--:|--:|--:|--:|--:|--:|--:|--:|--:|--:|");
    let mut growth = Vec::new();
    for (width, height) in &SIZES[..sizes] {
        for bent in [false, true] {
            let screen = Screen::new(*width, *height, bent);
            let n = screen.count();
            let kind = if bent { "bent" } else { "flat" };
            for &rule in rules {
                let m = measure(&screen, rule, [portable, native], n / 2 + width / 2, rounds);
                println!(
                    "| {n} nodes, {kind} | {rule} | {:.2} | {:.2} | {:.2} | {:.2} | {:.2} | {:.3} | 1/{:.0} | 1/{:.0} | {:.0} % | {} |",
                    m.ours,
                    m.portable,
                    m.native,
                    m.ours / m.portable,
                    m.ours / m.native,
                    m.moved,
                    m.portable / m.moved,
                    m.native / m.moved,
                    m.spread * 100.0,
                    m.differ
                );
                growth.push((kind, rule, n as f64, m));
            }
        }
    }
    if sizes < 2 {
        return;
    }
    println!("\nGrowth with the number of nodes, the exponent fitted over the sizes above:\n");
    println!("| screen | rule | our matrix | Rust portable | our move |\n|---|--:|--:|--:|--:|");
    for kind in ["flat", "bent"] {
        for &rule in rules {
            let fit = |time: fn(&Measured) -> f64| {
                let of: Vec<_> = growth
                    .iter()
                    .filter(|g| g.0 == kind && g.1 == rule)
                    .map(|g| (g.2, time(&g.3)))
                    .collect();
                exponent(&of)
            };
            println!(
                "| {kind} | {rule} | {:.2} | {:.2} | {:.2} |",
                fit(|m| m.ours),
                fit(|m| m.portable),
                fit(|m| m.moved)
            );
        }
    }
}

/// A line for each screen and rule: its kind, its nodes, the rule, seconds of thread time of a fresh matrix and of a move.
pub fn ours(rules: &[u32], sizes: usize) {
    for (width, height) in &SIZES[..sizes] {
        for bent in [false, true] {
            let screen = Screen::new(*width, *height, bent);
            let n = screen.count();
            let mut matrix = vec![f64::NAN; n * n];
            for &rule in rules {
                let fresh = timed(|| screen.ours(rule, &mut matrix));
                let mut moved = screen.clone();
                let node = n / 2 + width / 2;
                let [x, y, z] = moved.nodes.each_ref().map(|c| c[node]);
                let place = [x + 0.1, y - 0.1, z + 0.05];
                let renewed = timed(|| {
                    moved.move_node(rule, &mut matrix, node, place);
                });
                println!(
                    "{} {n} {rule} {fresh:.6} {renewed:.6}",
                    if bent { "bent" } else { "flat" }
                );
            }
        }
    }
}

const MOST_PANELS: usize = 8192;
const POINTS: [usize; 5] = [1, 3, 4, 6, 7];
const CALLS: usize = 100;

/// A line for each rule: the rule, and milliseconds of thread time of the quadrature points of 4,096 nodes and as many panels as there
/// may be, some of them twice: the least of some calls.
pub fn points(rules: &[u32]) {
    let mut screen = Screen::new(64, 64, true);
    for column in &mut screen.panels {
        column.extend_from_within(..MOST_PANELS - column.len());
    }
    for &rule in rules {
        let count = MOST_PANELS * POINTS[rule as usize - 1];
        let mut out = [(); 4].map(|()| vec![f64::NAN; count]);
        let times = (0..CALLS).map(|_| timed(|| screen.points(rule, &mut out)));
        println!("{rule} {:.6}", times.fold(f64::INFINITY, f64::min) * 1e3);
    }
}

/// Runs of moves of single nodes from a fresh matrix; after each all cells, coordinates and the count are compared, the cells as
/// above with the original's fresh matrix of the mesh as it then stands.
pub fn moves(native: Matrix, each: usize) {
    for ((width, height), bent, rule) in [
        (SIZES[0], false, 3),
        (SIZES[0], true, 5),
        (SIZES[1], false, 1),
        (SIZES[1], true, 1),
    ] {
        let mut r = Rng(17);
        let mut screen = Screen::new(width, height, bent);
        let n = screen.count();
        let (mut matrix, mut due) = (vec![f64::NAN; n * n], vec![f64::NAN; n * n]);
        screen.ours(rule, &mut matrix);
        let mut differ = 0;
        for _ in 0..each {
            let node = r.index(n);
            let place = [0, 1, 2].map(|c: usize| screen.nodes[c][node] + 0.1 * r.signed());
            let mut expected = screen.clone();
            for (column, value) in expected.nodes.iter_mut().zip(place) {
                column[node] = value;
            }
            let named = screen.named(node);
            let count = screen.move_node(rule, &mut matrix, node, place);
            differ += (count != named) as usize;
            for (a, b) in screen.nodes.iter().zip(&expected.nodes) {
                differ += differing(a, b);
            }
            expected.original(native, rule, &mut due);
            differ += cells_differing(&matrix, &due, n);
        }
        println!(
            "{n} nodes, {}, rule {rule}: {each} moves in a row, {differ} differ",
            if bent { "bent" } else { "flat" }
        );
    }
}
