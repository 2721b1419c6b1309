//! Random cases aimed at the hard places; a function of the seed alone.
mod meshes;
mod numbers;
mod panels;
mod shapes;
pub mod stored;

use crate::calls::{self, Mesh};
use crate::eval::{self, Out, eval};
use crate::rng::Rng;
pub use meshes::three_by_three;
use meshes::{filled, length_near, mesh, rule};
use numbers::values;
use panels::{Style, pair, point, point_near, style, triangle};

/// A mesh among those that the kinds on meshes use, small.
pub fn small_mesh(r: &mut Rng) -> Mesh {
    meshes::tested(r)
}

/// The input of one case.
pub fn one(kind: u32, r: &mut Rng) -> Vec<u64> {
    let o = Out::default();
    match eval::name(kind) {
        "fma" => o.bits(&numbers::mul_add(r)),
        "square_add" => o.bits(&numbers::square_add(r)),
        "sqrt" => o.number(numbers::sqrt(r)),
        "ln" => o.number(numbers::ln(r)),
        "asinh" => o.number(numbers::asinh(r)),
        "atan2" => o.bits(&numbers::atan2(r)),
        "abs" => o.number(numbers::any_number(r)),
        "min" | "max" => o.bits(&numbers::two(r)),
        "clamp" => o.bits(&numbers::clamp(r)),
        "display" => o.number(numbers::display(r)),
        "dot3" | "cross3" => {
            let s = style(r);
            let (a, b) = (point(r, s), point(r, s));
            o.bits(&a).bits(&b)
        }
        "sub3" | "add3" => {
            let (a, b) = panels::two_points(r);
            o.bits(&a).bits(&b)
        }
        "norm3" | "normalize3" => o.bits(&panels::any_point(r)),
        "scale3" => o.bits(&panels::any_point(r)).number(panels::factor(r)),
        "add_scaled3" => {
            let (a, b, scale) = panels::scaled_sum(r);
            o.bits(&a).bits(&b).number(scale)
        }
        "closest_point" | "point_distance" => {
            let s = style(r);
            let t = triangle(r, s);
            o.bits(&point_near(r, t, s)).triangle(t)
        }
        "area" | "record" | "basis_densities" | "normal" => o.triangle(panels::thin(r)),
        "quality" => o.triangle(panels::poor(r)),
        "bisect" | "longest_edge" => o.triangle(panels::with_equal_edges(r)),
        "potential" | "gradient" | "contact" => {
            let s = style(r);
            let t = triangle(r, s);
            o.triangle(t).bits(&point_near(r, t, s))
        }
        "map_point" => {
            let s = style(r);
            o.triangle(triangle(r, s)).bits(&panels::reference_point(r))
        }
        "panel_density" => {
            let s = style(r);
            o.triangle(triangle(r, s)).bits(&values(r, 3))
        }
        "coupling" | "block" | "coupling_regular" | "steps" => {
            let (a, b) = pair(r);
            o.word(rule(r)).triangle(a).triangle(b)
        }
        "box_distance" | "panel_distance" | "is_far" => {
            let (a, b) = pair(r);
            o.triangle(a).triangle(b)
        }
        "identical" => {
            let (a, b) = panels::nearly_identical(r);
            o.triangle(a).triangle(b)
        }
        "entry" => {
            let (a, b) = pair(r);
            let (i, j) = (corner(r), corner(r));
            o.word(rule(r)).triangle(a).word(i).triangle(b).word(j)
        }
        "segment_distance" => o.bits(panels::segments(r).as_flattened()),
        "block_energy" => o.bits(&values(r, 9)).bits(&values(r, 3)).bits(&values(r, 3)),
        "mesh_test" => o.mesh(&meshes::tested(r)),
        "quadrature" => {
            let mesh = meshes::for_columns(r);
            let rule = rule(r);
            let points = [1, 3, 4, 6, 7].get(rule.wrapping_sub(1) as usize);
            let due = mesh.panels() * points.unwrap_or(&1);
            o.word(rule).mesh(&mesh).lengths(&lengths::<4>(r, due))
        }
        "densities" => {
            let mesh = meshes::for_columns(r);
            let lengths = lengths::<3>(r, mesh.panels());
            let count = if r.one_in(6) {
                length_near(r, mesh.nodes())
            } else {
                mesh.nodes()
            };
            o.mesh(&mesh).numbers(&values(r, count)).lengths(&lengths)
        }
        "matrix" => {
            let mesh = meshes::damaged_one_in(r, 6, 9, 8);
            let [length] = lengths(r, mesh.nodes() * mesh.nodes());
            o.word(rule(r)).mesh(&mesh).size(length)
        }
        "energy2" => {
            let n = r.index(6);
            let (k, cells) = (length_near(r, n), length_near(r, n * n));
            o.numbers(&any_matrix(r, cells, n))
                .numbers(&values(r, n))
                .numbers(&values(r, k))
        }
        "energy1" => {
            let n = r.index(6);
            let cells = length_near(r, n * n);
            o.numbers(&any_matrix(r, cells, n)).numbers(&values(r, n))
        }
        "flux" | "interaction" => map_work(kind, r, o),
        "move" => moved(r, o),
        "row_matrix" => {
            let n = if r.one_in(12) {
                r.pick(&[4096, 4097, 4095, usize::MAX, 1 << 32])
            } else {
                r.index(7)
            };
            let length = length_near(r, n.saturating_mul(n).min(1 << 25));
            let node = r.index(n.min(4096) + 2);
            let node = if r.one_in(20) { usize::MAX } else { node };
            o.size(length).size(n).size(node)
        }
        "row_map" => {
            let (n, sources) = (r.index(6), r.index(5));
            let length = length_near(r, n * sources);
            let length = if sources == 0 { r.index(3) } else { length };
            let node = if r.one_in(20) { usize::MAX } else { r.index(n + 2) };
            o.size(length).size(sources).size(node)
        }
        "read_file" => {
            let (bytes, mesh) = file(r, false);
            let (n, p) = (mesh.nodes(), mesh.panels());
            let due = [n, n, n, p, p, p];
            let lengths = if r.one_in(6) {
                due.map(|l| length_near(r, l))
            } else {
                due
            };
            o.bytes(&bytes).lengths(&lengths)
        }
        "density_program" => o.bytes(&file(r, true).0),
        "write_file" => {
            let mesh = meshes::to_write(r);
            let due = calls::file_length(mesh.nodes(), mesh.panels());
            o.mesh(&mesh).size(length_near(r, due))
        }
        "save_shape" => shapes::save(r),
        "drop_shape" => shapes::dropping(r),
        "return_shape" => shapes::returning(r),
        name => panic!("no generator for {name}"),
    }
    .0
}

/// Mostly 0 to 2.
fn corner(r: &mut Rng) -> u64 {
    match r.below(60) {
        0 => u64::MAX,
        1 | 2 => 3,
        k => k % 3,
    }
}

/// Output lengths: mostly all the one due.
fn lengths<const N: usize>(r: &mut Rng, due: usize) -> [usize; N] {
    if r.one_in(3) {
        std::array::from_fn(|_| length_near(r, due))
    } else {
        [due; N]
    }
}

fn map_work(kind: u32, r: &mut Rng, o: Out) -> Out {
    let (n, sources) = (r.index(5), r.index(5));
    let length = length_near(r, n * sources);
    let count = if sources == 0 {
        r.index(3) * r.index(2)
    } else {
        length_near(r, n)
    };
    let (map, coefficients, nodal) = (values(r, length), values(r, sources), values(r, count));
    match eval::name(kind) {
        "flux" => o.numbers(&map).numbers(&coefficients).size(count),
        _ => o.numbers(&map).numbers(&nodal).numbers(&coefficients),
    }
}

/// Makes a matrix of n by n numbers symmetric as often as not. Drawn beside the stream: what else a case has does not depend on it.
fn mirror_some(r: &Rng, cells: &mut [f64], n: usize) {
    let mut beside = Rng(!r.0);
    if cells.len() == n * n && beside.one_in(2) {
        calls::mirror(cells, n);
    }
}

/// Any numbers; where they are n by n, symmetric as often as not.
fn any_matrix(r: &mut Rng, length: usize, n: usize) -> Vec<f64> {
    let mut cells = values(r, length);
    mirror_some(r, &mut cells, n);
    cells
}

/// A matrix for a move or a return: the original's own of the mesh or any numbers, and either made symmetric or not.
fn handed_in(r: &mut Rng, rule: u64, mesh: &Mesh, length: usize) -> Vec<f64> {
    let n = mesh.nodes();
    let mut cells = match calls::original_matrix(rule, mesh, n * n) {
        Ok(own) if length == n * n && r.one_in(2) => own,
        _ => values(r, length),
    };
    mirror_some(r, &mut cells, n);
    cells
}

/// A move of any node to a place near, far or another node's.
fn moved(r: &mut Rng, o: Out) -> Out {
    let mesh = meshes::damaged_one_in(r, 10, 8, 7);
    let (n, rule) = (mesh.nodes(), rule(r));
    let length = if r.one_in(10) { length_near(r, n * n) } else { n * n };
    let given = handed_in(r, rule, &mesh, length);
    let node = if n == 0 || r.one_in(15) {
        n + r.index(2)
    } else {
        r.index(n)
    };
    let whole = mesh.y.len() == n && mesh.z.len() == n;
    let place = match r.below(6) {
        0 if n > 0 && whole => mesh.node(r.index(n)),
        1 => point(r, Style::Special),
        2 | 3 if node < n && whole => mesh.node(node).map(|x| x + 0.1 * r.signed()),
        _ => point(r, Style::Half),
    };
    o.word(rule).mesh(&mesh).numbers(&given).size(node).bits(&place)
}

/// A panel file and the mesh that was written to it; the bytes are then often damaged.
fn file(r: &mut Rng, with_values: bool) -> (Vec<u8>, Mesh) {
    let mut mesh = mesh(r, 9, 8);
    if r.one_in(8) && mesh.panels() > 0 {
        let k = r.index(mesh.panels());
        mesh.c[k] = r.pick(&[mesh.nodes(), 65535]);
    }
    let nodal = values(r, mesh.nodes());
    let behind = with_values.then_some(&nodal[..]);
    let mut bytes = calls::encode(&mesh, behind).expect("small counts");
    match r.below(12) {
        0 => bytes[r.index(9)] ^= 1 << r.below(8),
        1 => bytes.truncate(r.index(bytes.len() + 1)),
        2 => bytes.push(r.word() as u8),
        3 => bytes.truncate(bytes.len() - 1),
        4 => {
            let any = r.word() as u8;
            let counts = [
                any,
                r.pick(&[0, 0, 16, 15, 17, 32]),
                any ^ 0x5a,
                r.pick(&[0, 0, 32, 33]),
            ];
            bytes.truncate(5);
            bytes.extend(counts);
        }
        5 => bytes[5..9].copy_from_slice(&r.pick(&[
            [64, 0, 128, 0],
            [65, 0, 128, 0],
            [64, 0, 129, 0],
            [1, 16, 0, 0],
            [0, 16, 0, 32],
            [0, 0, 1, 32],
        ])),
        _ => {}
    }
    (bytes, mesh)
}

/// How many cases of a kind there are at scale 1.
pub fn count(kind: u32) -> usize {
    match eval::name(kind) {
        "fma" | "square_add" => 12000,
        "sqrt" | "ln" | "asinh" | "atan2" | "mesh_test" | "segment_distance" => 5000,
        "closest_point" | "point_distance" | "coupling" | "is_far" => 6000,
        "area" | "quality" | "record" | "potential" | "gradient" | "contact" | "bisect" | "steps" | "identical" => 4000,
        "matrix" | "move" | "return_shape" => 2500,
        _ => 3000,
    }
}

/// A few large cases, at the limits of sizes.
fn limits() -> Vec<(&'static str, Out)> {
    let input = Out::default;
    let mut cases = vec![];
    for (nodes, panels, missing) in [
        (4096, 3, false),
        (4097, 3, false),
        (3, 8192, false),
        (3, 8193, false),
        (4096, 8192, false),
        (4096, 8192, true),
        (4097, 8193, false),
        (4097, 1, true),
        (3, 8193, true),
    ] {
        let mut mesh = filled(nodes, panels);
        if missing {
            mesh.c[0] = usize::MAX;
        }
        cases.push(("mesh_test", input().mesh(&mesh)));
    }
    let mut short = filled(4097, 0);
    short.z.pop();
    cases.push(("mesh_test", input().mesh(&short)));

    let ones = vec![1.0; 4097];
    let most = &ones[..4096];
    cases.push(("energy2", input().numbers(&[]).numbers(&ones).numbers(&ones)));
    cases.push(("energy2", input().numbers(&[]).numbers(&ones).numbers(most)));
    cases.push(("energy2", input().numbers(&[1.0]).numbers(most).numbers(most)));
    cases.push(("energy1", input().numbers(&[]).numbers(&ones)));
    cases.push(("energy1", input().numbers(&[1.0]).numbers(most)));

    let many = filled(4097, 1);
    cases.push(("matrix", input().word(1).mesh(&many).size(0)));
    cases.push(("matrix", input().word(9).mesh(&many).size(0)));
    cases.push(("densities", input().mesh(&many).numbers(&[]).lengths(&[0; 3])));
    let largest = filled(4096, 8192);
    for (panels, output) in [(8192, 8192), (8192, 8191), (8193, 8193)] {
        let mesh = filled(4096, panels);
        cases.push(("densities", input().mesh(&mesh).numbers(most).lengths(&[output; 3])));
    }
    cases.push(("densities", input().mesh(&largest).numbers(&ones).lengths(&[8192; 3])));
    for (rule, points) in [(1, 1), (2, 3), (3, 4), (4, 6), (5, 7)] {
        let due = 8192 * points;
        cases.push(("quadrature", input().word(rule).mesh(&largest).lengths(&[due; 4])));
        let short = [due, due, due, due - 1];
        cases.push(("quadrature", input().word(rule).mesh(&largest).lengths(&short)));
    }
    cases.push(("quadrature", input().word(5).mesh(&many).lengths(&[7; 4])));
    cases.push((
        "move",
        input().word(3).mesh(&many).numbers(&[]).size(9999).bits(&[0.0; 3]),
    ));
    cases.push(("quadrature", input().word(2).mesh(&filled(3, 8193)).lengths(&[0; 4])));
    // Accepted, one panel many times: the order of the additions shows.
    cases.push(("matrix", input().word(2).mesh(&filled(3, 300)).size(9)));
    cases.extend(file_limits());
    cases
}

/// The same for files: the longest, one whose panels name all its nodes, and one node or panel too many.
fn file_limits() -> Vec<(&'static str, Out)> {
    let input = Out::default;
    let mut cases = vec![];
    for mesh in [filled(4096, 8192), meshes::sheet(&mut Rng(1), 4096)] {
        let (n, p) = (mesh.nodes(), mesh.panels());
        let due = calls::file_length(n, p);
        cases.push(("write_file", input().mesh(&mesh).size(due)));
        cases.push(("write_file", input().mesh(&mesh).size(due - 1)));
        let bytes = calls::encode(&mesh, None).expect("counts of 16 bits");
        cases.push(("read_file", input().bytes(&bytes).lengths(&[n, n, n, p, p, p])));
    }
    for (nodes, panels) in [(4097, 1), (3, 8193)] {
        let due = calls::file_length(nodes, panels);
        cases.push(("write_file", input().mesh(&filled(nodes, panels)).size(due)));
    }
    cases
}

/// Hands kind, input and results of every case to `each`; of one kind only if it is named.
pub fn all(seed: u64, scale: f64, only: Option<u32>, mut each: impl FnMut(u32, &[u64], &[u64])) {
    let limits = limits();
    for kind in 1..=eval::NAMES.len() as u32 {
        if only.is_some_and(|k| k != kind) {
            continue;
        }
        let mut r = Rng(seed.wrapping_mul(0x2545f4914f6cdd1d) ^ ((kind as u64) << 48));
        for _ in 0..(count(kind) as f64 * scale) as usize {
            let input = one(kind, &mut r);
            each(kind, &input, &eval(kind, &input));
        }
        let of_kind = limits.iter().filter(|(name, _)| *name == eval::name(kind));
        for input in of_kind.map(|(_, input)| input).chain(&shapes::limits(eval::name(kind))) {
            each(kind, &input.0, &eval(kind, &input.0));
        }
    }
}
