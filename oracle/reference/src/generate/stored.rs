//! The stored sample (oracle/sample): which cases each of its files has.
use super::meshes::{self, filled};
use super::numbers::values;
use super::one;
use super::panels::{Style, point};
use super::shapes::{shift, store_of};
use crate::calls::{self, Mesh};
use crate::eval::{self, Out, eval};
use crate::rng::Rng;
use crate::sorts::{self, Asked};
use std::collections::BTreeMap;

/// Of the first sixty seeds this one gives the small cases with the most refusals and sorts of results.
const SEED: u64 = 35;
/// How many small cases there are of a kind.
const SMALL: usize = 70;
/// The most words of a small case, and the greatest length of what it has lent beside them.
const SMALL_WORDS: usize = 512;

/// What `oracle_meshes` replays.
const MESHES: [&str; 13] = [
    "mesh_test",
    "quadrature",
    "densities",
    "energy2",
    "energy1",
    "flux",
    "interaction",
    "row_matrix",
    "row_map",
    "read_file",
    "density_program",
    "display",
    "write_file",
];
/// What `oracle_matrices` replays.
const MATRICES: [&str; 2] = ["matrix", "move"];
/// What `oracle_meshes` replays of a store of shapes, and how many cases there are of each.
const SHAPES: [(&str, usize); 2] = [("save_shape", 60), ("drop_shape", 50)];
/// What `oracle_returns` replays, and how many cases there are.
const RETURN: (&str, usize) = ("return_shape", 70);
/// What is no call.
const LEFT_OUT: [&str; 1] = ["steps"];

/// Kind, input and results.
pub type Case = (u32, Vec<u64>, Vec<u64>);

/// The files by their names. The last case of each is wrong.
pub fn files() -> Vec<(&'static str, Vec<Case>)> {
    let shape = |name: &str| SHAPES.iter().any(|(kind, _)| *kind == name) || name == RETURN.0;
    let elsewhere = |name: &&str| MESHES.contains(name) || MATRICES.contains(name) || LEFT_OUT.contains(name);
    let other = |name: &&str| !elsewhere(name) && !shape(name);
    let fixed: Vec<&str> = eval::NAMES.into_iter().filter(other).collect();
    let calls = small(&fixed);
    let mut meshes = small(&MESHES);
    meshes.push(answered("read_file", zero_area(), 4));
    meshes.extend(SHAPES.into_iter().flat_map(|(name, count)| told_apart(name, count)));
    let mut matrices = small(&MATRICES);
    matrices.extend(larger(&[20, 21, 22, 23, 24], 2));
    let returns = told_apart(RETURN.0, RETURN.1);
    let mut large = larger(&[28, 36, 44, 52, 60], 1);
    large.extend(too_large());
    large.push(long_file());
    large.extend(large_shapes());
    let files = [
        ("calls", calls, "gradient"),
        ("meshes", meshes, "densities"),
        ("matrices", matrices, "matrix"),
        ("returns", returns, "return_shape"),
        ("large", large, "move"),
    ];
    let mut ended = vec![];
    for (name, mut cases, kind) in files {
        cases.push(wrong(&cases, kind));
        ended.push((name, cases));
    }
    ended
}

/// Small cases of these kinds, in the order of the kinds.
fn small(names: &[&str]) -> Vec<Case> {
    let mut cases = vec![];
    for kind in (1..=eval::NAMES.len() as u32).filter(|kind| names.contains(&eval::name(*kind))) {
        let mut r = Rng(SEED.wrapping_mul(0x2545f4914f6cdd1d) ^ ((kind as u64) << 48));
        let mut left = SMALL;
        while left > 0 {
            let input = one(kind, &mut r);
            let results = eval(kind, &input);
            let words = 2 + input.len() + results.len();
            if words <= SMALL_WORDS && lent(eval::name(kind), &input) <= SMALL_WORDS as u64 {
                cases.push((kind, input, results));
                left -= 1;
            }
        }
    }
    cases
}

/// So many cases of a kind of named shapes: under each number some of each sort that `sorts` tells apart, where the first
/// thousands have them, then accepted ones; all in the order of the stream.
fn told_apart(name: &str, count: usize) -> Vec<Case> {
    let kind = eval::kind(name).expect(name);
    let mut r = Rng(SEED.wrapping_mul(0x2545f4914f6cdd1d) ^ ((kind as u64) << 48));
    let mut seen = BTreeMap::new();
    let (mut cases, mut rest) = (vec![], vec![]);
    for place in 0..5000 {
        let input = one(kind, &mut r);
        let asked = Asked::read(name, &input).expect(name);
        if !is_small(&asked) {
            continue;
        }
        let results = eval(kind, &input);
        let number = results[0];
        let mut all: Vec<_> = sorts::sorts(&asked, number)
            .into_iter()
            .map(|sort| (number, sort))
            .collect();
        all.push((number, String::new()));
        let case = (place, (kind, input, results));
        let most = match number {
            0 => 3,
            6 | 17 | 18 => 1, // many sorts
            _ => 2,
        };
        if all.iter().any(|sort| seen.get(sort).is_none_or(|times| *times < most)) {
            all.into_iter().for_each(|sort| *seen.entry(sort).or_insert(0) += 1);
            cases.push(case);
        } else if number == 0 {
            rest.push(case);
        }
    }
    assert!(cases.len() <= count, "{name}: {} cases", cases.len());
    rest.truncate(count - cases.len());
    cases.extend(rest);
    cases.sort_by_key(|case| case.0);
    cases.into_iter().map(|case| case.1).collect()
}

/// Whether the program in Rattle has room for the case.
fn is_small(asked: &Asked) -> bool {
    let (m, s) = (&asked.mesh, &asked.store);
    let at_most = |columns: [usize; 3], most: usize| columns.iter().all(|length| *length <= most);
    at_most([m.x.len(), m.y.len(), m.z.len()], 9)
        && at_most([m.a.len(), m.b.len(), m.c.len()], 12)
        && at_most([s.x.len(), s.y.len(), s.z.len()], 74)
        && at_most([s.marks.len(), s.names.len() / 8, 0], 9)
        && asked.given.as_ref().is_none_or(|(_, cells)| cells.len() <= 82)
}

/// The length of what a case has lent that is not among its words: the matrix or map whose row it asks for, or a file's bytes.
fn lent(name: &str, input: &[u64]) -> u64 {
    match name {
        "row_matrix" | "row_map" => input[0],
        "write_file" => input[input.len() - 1],
        _ => 0,
    }
}

/// A case that must have this refusal's number, 0 for done.
fn answered(name: &str, input: Out, number: u64) -> Case {
    let kind = eval::kind(name).expect(name);
    let results = eval(kind, &input.0);
    assert_eq!(results[0], number, "{name}");
    (kind, input.0, results)
}

/// Accepted matrices and moves: for each count of nodes and each time a matrix, then a move, with the rules in turn. A move is
/// given the original's own matrix or any numbers; of either the first is made symmetric, and then every other one.
fn larger(counts: &[usize], times: usize) -> Vec<Case> {
    let mut r = Rng(SEED);
    let (mut cases, mut rule, mut symmetric) = (vec![], 0, [false; 2]);
    for nodes in counts.repeat(times) {
        let mesh = meshes::sheet(&mut r, nodes);
        rule = rule % 5 + 1;
        let cells = nodes * nodes;
        let input = Out::default().word(rule).mesh(&mesh);
        cases.push(answered("matrix", input.size(cells), 0));
        let mesh = meshes::sheet(&mut r, nodes);
        let own = r.one_in(2);
        let mut given = match own {
            true => calls::original_matrix(rule, &mesh, cells).expect("an accepted mesh"),
            false => values(&mut r, cells),
        };
        let turn = &mut symmetric[own as usize];
        *turn = !*turn;
        if *turn {
            calls::mirror(&mut given, nodes);
        }
        let node = r.index(nodes);
        let shift = point(&mut r, Style::Uniform);
        let place: [f64; 3] = std::array::from_fn(|k| mesh.node(node)[k] + 0.1 * shift[k]);
        let input = Out::default().word(rule).mesh(&mesh).numbers(&given);
        cases.push(answered("move", input.size(node).bits(&place), 0));
    }
    cases.sort_by_key(|(kind, _, _)| *kind);
    cases
}

/// A file whose panel has its corners on a line, with columns of the lengths due.
fn zero_area() -> Out {
    let mesh = Mesh::of_panel([[0.0, 0.0, 0.0], [1.0, 1.0, 1.0], [3.0, 3.0, 3.0]]);
    let bytes = calls::encode(&mesh, None).expect("small counts");
    Out::default().bytes(&bytes).lengths(&[3, 3, 3, 1, 1, 1])
}

/// One node or one panel more than a mesh may have.
fn too_large() -> Vec<Case> {
    let input = Out::default;
    let nodes = filled(calls::MAX_NODES + 1, 1);
    let panels = filled(3, calls::MAX_PANELS + 1);
    vec![
        answered("mesh_test", input().mesh(&nodes), 11),
        answered("mesh_test", input().mesh(&panels), 11),
        answered("matrix", input().word(1).mesh(&nodes).size(0), 11),
        answered(
            "move",
            input().word(3).mesh(&nodes).numbers(&[]).size(0).bits(&[0.0; 3]),
            11,
        ),
    ]
}

/// A file whose counts and many of whose indices take both of their bytes.
fn long_file() -> Case {
    let mesh = meshes::sheet(&mut Rng(SEED), 300);
    let length = calls::file_length(mesh.nodes(), mesh.panels());
    answered("write_file", Out::default().mesh(&mesh).size(length), 0)
}

/// Returns of 40 and 60 nodes, from a fresh matrix and from any numbers, and number 11 of each call.
fn large_shapes() -> Vec<Case> {
    let (input, name) = (Out::default, *b"as cast\0");
    let mut r = Rng(SEED);
    let mut cases = vec![];
    for (nodes, rule) in [(40, 2), (60, 5)] {
        let cast = meshes::sheet(&mut r, nodes);
        let mut bent = cast.clone();
        shift(&mut r, &mut bent, 3);
        let given = match rule {
            2 => calls::matrix(rule, &bent, nodes * nodes).expect("an accepted mesh"),
            _ => values(&mut r, nodes * nodes),
        };
        let store = store_of(nodes, &[(*b"bent    ", &bent), (name, &cast)]);
        let input = input().word(rule).mesh(&bent).numbers(&given);
        cases.push(answered("return_shape", input.store(&store).name(name), 0));
    }
    let (mesh, store) = (filled(calls::MAX_NODES + 1, 1), store_of(3, &[]));
    cases.extend([
        answered("save_shape", input().mesh(&mesh).store(&store).name(name), 11),
        answered("drop_shape", input().mesh(&mesh).store(&store).name(name), 11),
        answered(
            "return_shape",
            input().word(3).mesh(&mesh).numbers(&[]).store(&store).name(name),
            11,
        ),
    ]);
    cases
}

/// The first of the cases of a kind that have the most results, with the lowest bit of its last result flipped: who compares
/// must find that it differs.
fn wrong(cases: &[Case], kind: &str) -> Case {
    let kind = eval::kind(kind).expect(kind);
    let of_kind = || cases.iter().filter(|case| case.0 == kind);
    let most = of_kind().map(|case| case.2.len()).max();
    let mut case = of_kind()
        .find(|case| Some(case.2.len()) == most)
        .expect("a case of that kind")
        .clone();
    let last = case.2.last_mut().expect("a result");
    assert!(!f64::from_bits(*last).is_nan(), "every NaN is one number");
    *last ^= 1;
    case
}
