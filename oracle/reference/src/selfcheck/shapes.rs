//! Named shapes: examples worked out by hand, and the reference against plainer ways to the same answers.
use super::{Sheet, hex};
use crate::calls::{self, Mesh};
use crate::generate::{self, three_by_three};
use crate::rng::Rng;
use crate::shapes::{Name, Store, drop_shape, return_shape, save_shape};
use crate::{canonical, eval, sorts};

const CAST: Name = *b"as cast\0";

pub fn shapes(sheet: &mut Sheet) {
    println!("\nNamed shapes");
    places(sheet);
    numbers(sheet);
    counts(sheet);
    sixty_moves(sheet);
    against_plainer(sheet);
}

fn empty(nodes: usize) -> Store {
    Store {
        marks: vec![0; 8],
        names: vec![0; 64],
        x: vec![9.0; 8 * nodes],
        y: vec![9.0; 8 * nodes],
        z: vec![9.0; 8 * nodes],
    }
}

/// The unit panel raised by z.
fn raised(z: f64) -> Mesh {
    Mesh::of_panel([[0.0, 0.0, z], [1.0, 0.0, z], [0.0, 1.0, z]])
}

/// Marks, names as text with a dot for any other byte, and the z of each place's first node.
fn text(store: &Store) -> String {
    let marks: Vec<String> = store.marks.iter().map(u8::to_string).collect();
    let letter = |b: &u8| if b.is_ascii_graphic() { *b as char } else { '.' };
    let names: Vec<String> = store
        .names
        .chunks(8)
        .map(|name| name.iter().map(letter).collect())
        .collect();
    let z: Vec<String> = store.z.iter().step_by(3).map(f64::to_string).collect();
    format!("{} | {} | {}", marks.join(" "), names.join(" "), z.join(" "))
}

/// Which place a name has.
fn places(sheet: &mut Sheet) {
    let mut store = empty(3);
    store.marks = vec![7, 0, 255, 1, 0, 1, 1, 1];
    store.names = b"a.......b.......b.......b.......c.......d.......e.......f.......".to_vec();
    let name = |letter: u8| [letter, 46, 46, 46, 46, 46, 46, 46];
    let mut step = |what: &str, letter: u8, z: Option<f64>, due: &str| {
        let answer = match z {
            Some(z) => save_shape(&raised(z), &store, name(letter)),
            None => drop_shape(&raised(0.0), &store, name(letter)).map(|marks| Store { marks, ..store.clone() }),
        };
        let got = answer.as_ref().map_or_else(|number| number.to_string(), text);
        sheet.line(what, due, got);
        store = answer.unwrap_or(store.clone());
    };
    let end = "c....... d....... e....... f.......";
    let same = format!("a....... b....... b....... b....... {end}");
    step(
        "a is held by 7: saved there",
        b'a',
        Some(1.0),
        &format!("7 0 255 1 0 1 1 1 | {same} | 1 9 9 9 9 9 9 9"),
    );
    step(
        "b is stale in place 1: saved in 2",
        b'b',
        Some(2.0),
        &format!("7 0 255 1 0 1 1 1 | {same} | 1 9 2 9 9 9 9 9"),
    );
    step(
        "b is dropped in 2",
        b'b',
        None,
        &format!("7 0 0 1 0 1 1 1 | {same} | 1 9 2 9 9 9 9 9"),
    );
    step(
        "then in 3",
        b'b',
        None,
        &format!("7 0 0 0 0 1 1 1 | {same} | 1 9 2 9 9 9 9 9"),
    );
    step("then no more", b'b', None, "17");
    step(
        "c is stale in 4: new in 1",
        b'c',
        Some(3.0),
        &format!("7 1 0 0 0 1 1 1 | a....... c....... b....... b....... {end} | 1 3 2 9 9 9 9 9"),
    );
    for (letter, z) in [(b'g', 4.0), (b'h', 5.0), (b'i', 6.0)] {
        store_one(&mut store, letter, z);
    }
    let mut step = |what: &str, letter: u8, due: &str| {
        let answer = save_shape(&raised(8.0), &store, name(letter));
        sheet.line(
            what,
            due,
            answer.as_ref().map_or_else(|number| number.to_string(), text),
        );
    };
    let full = "a....... c....... g....... h....... i....... d....... e....... f.......";
    step("all eight held, a ninth", b'j', "18");
    step(
        "all eight held, a held one",
        b'f',
        &format!("7 1 1 1 1 1 1 1 | {full} | 1 3 4 5 6 9 9 8"),
    );
}

fn store_one(store: &mut Store, letter: u8, z: f64) {
    let name = [letter, 46, 46, 46, 46, 46, 46, 46];
    *store = save_shape(&raised(z), store, name).expect("a free place");
}

/// Each number before those that come behind it.
fn numbers(sheet: &mut Sheet) {
    let good = raised(0.0);
    let flat = Mesh::of_panel([[0.0; 3], [1.0; 3], [2.0; 3]]);
    let mut missing = flat.clone();
    missing.c[0] = 3;
    let mut short = missing.clone();
    short.b.clear();
    let mut uneven = short.clone();
    uneven.y.clear();
    let mut held = empty(3);
    (held.marks, held.names) = (vec![1; 8], CAST.repeat(8));
    (held.x, held.y, held.z) = (flat.x.repeat(8), flat.y.repeat(8), flat.z.repeat(8));
    let mut wrong = held.clone();
    wrong.z.pop();
    let other: Name = *b"as cast ";
    let meshes = [&uneven, &short, &missing, &flat, &good];
    let number = |answer: Result<(), u32>| answer.err().unwrap_or(0).to_string();
    let saved = |m: &Mesh, s: &Store, name: Name| number(save_shape(m, s, name).map(drop));
    let dropped = |m: &Mesh, s: &Store, name: Name| number(drop_shape(m, s, name).map(drop));
    let returned = |rule: u64, m: &Mesh, cells: usize, s: &Store, name: Name| {
        number(return_shape(rule, m, &vec![0.5; cells], s, name).map(drop))
    };
    let mut line = |what: &str, due: &str, got: Vec<String>| sheet.line(what, due, got.join(" "));
    let wrongs = |f: &dyn Fn(&Mesh) -> String| meshes.map(f).to_vec();
    line(
        "saving 1 2 3 4, 6 by a wrong store, 18, done",
        "1 2 3 4 6 18 0",
        [
            wrongs(&|m| saved(m, &wrong, other)),
            vec![saved(&good, &held, other), saved(&good, &held, CAST)],
        ]
        .concat(),
    );
    line(
        "dropping 1 2 3 4, 6 by a wrong store, 17, done",
        "1 2 3 4 6 17 0",
        [
            wrongs(&|m| dropped(m, &wrong, other)),
            vec![dropped(&good, &held, other), dropped(&good, &held, CAST)],
        ]
        .concat(),
    );
    line(
        "returning 12 five times, then by rule 5 1 2 3 4 6, 6 by a wrong matrix, 17, 4 by the shape",
        "12 12 12 12 12 1 2 3 4 6 6 17 4",
        [
            wrongs(&|m| returned(6, m, 8, &wrong, other)),
            wrongs(&|m| returned(5, m, 9, &wrong, other)),
            vec![
                returned(5, &good, 10, &held, other),
                returned(5, &good, 9, &held, other),
                returned(5, &good, 9, &held, CAST),
            ],
        ]
        .concat(),
    );
}

/// The 3 by 3 screen returned to with other numbers at some nodes: the count of cells, and how many are kept.
fn counts(sheet: &mut Sheet) {
    let mut screen = three_by_three();
    screen.add_node([5.0, f64::NAN, 0.0]);
    screen.z[2] = f64::NAN;
    let mut line = |what: &str, at: &[(usize, [f64; 3])], due: &str| {
        let mut shape = screen.clone();
        for &(node, [x, y, z]) in at {
            (shape.x[node], shape.y[node], shape.z[node]) = (x, y, z);
        }
        let store = save_shape(&shape, &empty(10), CAST).expect("an accepted shape");
        let given: Vec<f64> = (0..100).map(|k| 1e300 + k as f64 * 1e290).collect();
        let v = return_shape(3, &screen, &given, &store, CAST).expect("an accepted return");
        let kept = v.matrix.iter().zip(&given).filter(|(a, b)| a == b).count();
        let there = [(&v.mesh.x, &shape.x), (&v.mesh.y, &shape.y), (&v.mesh.z, &shape.z)];
        let bits = |column: &[f64]| column.iter().map(|x| x.to_bits()).collect::<Vec<_>>();
        let all = there.iter().all(|(a, b)| bits(a) == bits(b));
        sheet.line(what, due, format!("{} {kept} {all}", v.count));
    };
    println!(
        "the 3 by 3 screen, NaN for the z of node 2, and a node 9 without panels: cells renewed, kept; all coordinates set"
    );
    line("no node", &[], "0 100 true");
    line(
        "-0 for the z of node 0, ring 0 1 3",
        &[(0, [0.0, 0.0, -0.0])],
        "51 49 true",
    );
    line(
        "-0 for the x of node 6, ring 3 4 6 7",
        &[(6, [-0.0, 2.0, 0.0])],
        "64 36 true",
    );
    line("the z of node 8, ring 5 7 8", &[(8, [2.0, 2.0, 0.5])], "51 49 true");
    line(
        "nodes 0 and 8",
        &[(0, [0.1, 0.0, 0.0]), (8, [2.0, 2.0, 0.5])],
        "84 16 true",
    );
    line(
        "nodes 0 and 1, rings 0 1 3 and 0 1 2 3 4",
        &[(0, [0.1, 0.0, 0.0]), (1, [1.1, 0.0, 0.0])],
        "75 25 true",
    );
    line("node 2, another NaN", &[(2, [2.0, 0.0, -f64::NAN])], "0 100 true");
    line(
        "node 2, a number for the NaN, ring 1 2 4 5",
        &[(2, [2.0, 0.0, 0.0])],
        "64 36 true",
    );
    line("node 9, another NaN", &[(9, [5.0, -f64::NAN, 0.0])], "0 100 true");
    line("node 9, a number for the NaN", &[(9, [5.0, 1.0, 0.0])], "0 100 true");
    line(
        "node 4, NaN for a number, ring 1 to 7",
        &[(4, [1.0, f64::NAN, 0.0])],
        "91 9 true",
    );
}

/// "As cast", sixty moves, and back.
fn sixty_moves(sheet: &mut Sheet) {
    let cast = three_by_three();
    let fresh = calls::matrix(2, &cast, 81).unwrap();
    let store = save_shape(&cast, &empty(9), CAST).unwrap();
    let (mut r, mut now, mut cells) = (Rng(5), cast.clone(), fresh.clone());
    for _ in 0..60 {
        let node = r.index(9);
        let place = cast.node(node).map(|x| x + 0.2 * r.signed());
        let v = calls::move_node(2, &now, &cells, node, place).expect("an accepted move");
        (now, cells) = (v.mesh, v.matrix);
    }
    let back = return_shape(2, &now, &cells, &store, CAST).expect("an accepted return");
    let sum = |cells: &[f64]| cells.iter().map(|x| hex(*x)).collect::<String>();
    sheet.line("the matrix was another one", "true", sum(&cells) != sum(&fresh));
    sheet.line(
        "as cast, sixty moves, and back: the matrix",
        "true",
        sum(&back.matrix) == sum(&fresh),
    );
    let columns = |m: &Mesh| [sum(&m.x), sum(&m.y), sum(&m.z)];
    sheet.line("and the columns", "true", columns(&back.mesh) == columns(&cast));
}

/// A place of a store that was taken apart.
#[derive(Clone, PartialEq)]
struct Place {
    mark: u8,
    name: u64,
    nodes: Vec<[u64; 3]>,
}

/// The store as places, with every NaN one number; none if its parts do not divide so.
fn apart(store: &Store, nodes: usize) -> Option<Vec<Place>> {
    let Store { marks, names, x, y, z } = store;
    let lengths = [marks.len(), names.len(), x.len(), y.len(), z.len()];
    (lengths == [8, 64, nodes * 8, nodes * 8, nodes * 8]).then_some(())?;
    let node = |k: usize| [x[k], y[k], z[k]].map(canonical);
    let place = |p: usize| Place {
        mark: marks[p],
        name: (0..8).map(|k| (names[8 * p + k] as u64) << (8 * k)).sum(),
        nodes: (0..nodes).map(|k| node(p * nodes + k)).collect(),
    };
    Some((0..8).map(place).collect())
}

/// The number of a call that tests its mesh and then the store, or the places and the one that counts: the last in the order
/// from the last place to the first.
fn found(mesh: &Mesh, store: &Store, name: Name) -> Result<(Vec<Place>, Option<usize>), u32> {
    match calls::mesh_refusal(mesh) {
        0 => {}
        number => return Err(number),
    }
    let places = apart(store, mesh.nodes()).ok_or(6u32)?;
    let mut at = None;
    for p in [7, 6, 5, 4, 3, 2, 1, 0] {
        if places[p].mark > 0 && places[p].name == u64::from_le_bytes(name) {
            at = Some(p);
        }
    }
    Ok((places, at))
}

fn plain_save(mesh: &Mesh, store: &Store, name: Name) -> Result<Vec<Place>, u32> {
    let (mut places, at) = found(mesh, store, name)?;
    let free: Vec<usize> = (0..8).filter(|&p| places[p].mark == 0).collect();
    let nodes = (0..mesh.nodes()).map(|k| mesh.node(k).map(canonical)).collect();
    match (at, free.first()) {
        (Some(p), _) => places[p].nodes = nodes,
        (None, Some(&p)) => {
            places[p] = Place {
                mark: 1,
                name: u64::from_le_bytes(name),
                nodes,
            }
        }
        (None, None) => return Err(18),
    }
    Ok(places)
}

fn plain_drop(mesh: &Mesh, store: &Store, name: Name) -> Result<Vec<u8>, u32> {
    let (mut places, at) = found(mesh, store, name)?;
    places[at.ok_or(17u32)?].mark = 0;
    Ok(places.iter().map(|place| place.mark).collect())
}

/// A return as moves, one for each node that differs: none where one of them is refused on the way. The count is of the cells
/// that are no longer a number that no matrix has.
#[allow(clippy::type_complexity)]
fn plain_return(asked: &sorts::Asked) -> Option<Result<(u64, Vec<u64>, Vec<[u64; 3]>), u32>> {
    let (rule, given) = asked.given.as_ref()?;
    if !(1..6).contains(rule) {
        return Some(Err(12));
    }
    let mesh = &asked.mesh;
    let (places, at) = match found(mesh, &asked.store, asked.name) {
        Err(number) => return Some(Err(number)),
        Ok((_, None)) if given.len() == mesh.nodes().pow(2) => return Some(Err(17)),
        Ok(found) => found,
    };
    if given.len() != mesh.nodes().pow(2) {
        return Some(Err(6));
    }
    let due = &places[at?].nodes;
    let mut shape = mesh.clone();
    let (mut cells, mut marked) = (given.clone(), vec![f64::MAX; given.len()]);
    for (k, place) in due.iter().enumerate() {
        if shape.node(k).map(canonical) != *place {
            let place = place.map(f64::from_bits);
            let v = calls::move_node(*rule, &shape, &cells, k, place).ok()?;
            marked = calls::move_node(*rule, &shape, &marked, k, place).ok()?.matrix;
            (shape, cells) = (v.mesh, v.matrix);
        }
    }
    let count = marked.iter().filter(|x| **x != f64::MAX).count() as u64;
    let nodes = (0..mesh.nodes()).map(|k| shape.node(k).map(canonical));
    Some(Ok((count, cells.into_iter().map(canonical).collect(), nodes.collect())))
}

/// Generated cases: saves and drops on places taken apart, returns as moves, and returns from the fresh matrix against the
/// named shape's.
fn against_plainer(sheet: &mut Sheet) {
    let mut r = Rng(21);
    let (mut saves, mut drops, mut returns, mut fresh) = ([0; 2], [0; 2], [0; 2], [0; 2]);
    let count = |counts: &mut [usize; 2], same: bool| {
        counts[0] += 1;
        counts[1] += !same as usize;
    };
    for kind in ["save_shape", "drop_shape", "return_shape"] {
        for _ in 0..3000 {
            let input = generate::one(eval::kind(kind).unwrap(), &mut r);
            let asked = sorts::Asked::read(kind, &input).unwrap();
            let (mesh, store, name) = (&asked.mesh, &asked.store, asked.name);
            match &asked.given {
                None if kind == "save_shape" => {
                    let got = save_shape(mesh, store, name);
                    let got = got.map(|store| apart(&store, mesh.nodes()).expect("a store of that size"));
                    count(&mut saves, got == plain_save(mesh, store, name));
                }
                None => count(
                    &mut drops,
                    drop_shape(mesh, store, name) == plain_drop(mesh, store, name),
                ),
                Some((rule, cells)) => {
                    let got = return_shape(*rule, mesh, cells, store, name);
                    if let Some(plain) = plain_return(&asked) {
                        let got = got.as_ref().map(|v| {
                            let nodes = (0..mesh.nodes()).map(|k| v.mesh.node(k).map(canonical));
                            let cells = v.matrix.iter().map(|x| canonical(*x));
                            (v.count, cells.collect(), nodes.collect())
                        });
                        count(&mut returns, got.map_err(|number| *number) == plain);
                    }
                    if got.is_ok() {
                        count(&mut fresh, ends_fresh(*rule, &asked));
                    }
                }
            }
        }
    }
    println!(
        "{} saves, {} drops, {} returns as moves, {} returns from the fresh matrix",
        saves[0], drops[0], returns[0], fresh[0]
    );
    sheet.line("saves that differ on places taken apart", "0", saves[1]);
    sheet.line("drops that differ on places taken apart", "0", drops[1]);
    sheet.line("returns that are not the moves of their nodes", "0", returns[1]);
    sheet.line("returns that do not end in the named shape's matrix", "0", fresh[1]);
}

/// Whether a return from the matrix due of the present shape ends in the one due of the named shape.
fn ends_fresh(rule: u64, asked: &sorts::Asked) -> bool {
    let cells = asked.mesh.nodes().pow(2);
    let due = calls::matrix(rule, &asked.mesh, cells).expect("an accepted mesh");
    let v = return_shape(rule, &asked.mesh, &due, &asked.store, asked.name).expect("an accepted return");
    let fresh = calls::matrix(rule, &v.mesh, cells).expect("an accepted shape");
    v.matrix.iter().zip(&fresh).all(|(a, b)| canonical(*a) == canonical(*b))
}
