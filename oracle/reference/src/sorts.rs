//! What is told apart in the cases of named shapes, for statistics and for the choice of the stored ones.
use crate::calls::{self, Mesh};
use crate::eval::In;
use crate::shapes::{self, NAME, Name, PLACES, Store};

/// A case of named shapes.
pub struct Asked {
    pub mesh: Mesh,
    /// Of a return: the rule and the matrix.
    pub given: Option<(u64, Vec<f64>)>,
    pub store: Store,
    pub name: Name,
}

impl Asked {
    /// None if the kind is another one.
    pub fn read(kind: &str, input: &[u64]) -> Option<Asked> {
        let i = &mut In::new(input);
        let (mesh, given) = match kind {
            "save_shape" | "drop_shape" => (i.mesh(), None),
            "return_shape" => {
                let (rule, mesh) = (i.word(), i.mesh());
                (mesh, Some((rule, i.numbers())))
            }
            _ => return None,
        };
        Some(Asked {
            mesh,
            given,
            store: i.store(),
            name: i.name(),
        })
    }
}

/// The sorts that a case belongs to, by its number.
pub fn sorts(asked: &Asked, number: u64) -> Vec<String> {
    let fits = shapes::fits(&asked.store, asked.mesh.nodes());
    match number {
        6 => lengths(asked).collect(),
        _ if !fits => vec![],
        4 if calls::mesh_refusal(&asked.mesh) == 0 => vec!["area of the named shape".into()],
        0 | 17 | 18 => {
            let mut all = names(asked);
            if asked.given.is_some() && number == 0 {
                all.extend(nodes(asked).map(String::from));
            }
            all
        }
        _ => vec![],
    }
}

/// The slices that have another length than the one due.
fn lengths(asked: &Asked) -> impl Iterator<Item = String> {
    let (s, n) = (&asked.store, asked.mesh.nodes());
    let cells = asked.given.as_ref().map(|(_, cells)| cells.len());
    let slices = [
        ("marks", s.marks.len(), PLACES),
        ("names", s.names.len(), PLACES * NAME),
        ("x", s.x.len(), PLACES * n),
        ("y", s.y.len(), PLACES * n),
        ("z", s.z.len(), PLACES * n),
        ("matrix", cells.unwrap_or(n * n), n * n),
    ];
    slices.into_iter().filter_map(|(what, length, due)| match length {
        _ if length == due => None,
        0 => Some(format!("{what}: none")),
        _ if length < due => Some(format!("{what}: too short")),
        _ => Some(format!("{what}: too long")),
    })
}

/// How the places and their names stand to the name that is asked for.
fn names(asked: &Asked) -> Vec<String> {
    let (store, name) = (&asked.store, asked.name);
    let is_held = |p: &usize| shapes::is_held(store, *p);
    let has = |p: &usize| shapes::name_at(store, *p) == name;
    let held = (0..PLACES).filter(|p| is_held(p) && has(p)).count();
    let stale = (0..PLACES).find(|p| !is_held(p) && has(p));
    let first = shapes::place_of(store, name);
    let sorts = [
        ("name held", held == 1),
        ("name held twice", held > 1),
        (
            "held by another mark than 1",
            first.is_some_and(|p| store.marks[p] != 1),
        ),
        ("stale name", stale.is_some()),
        ("stale name before the held one", stale.is_some() && first > stale),
        ("all places held", (0..PLACES).all(|p| is_held(&p))),
        ("no place held", !(0..PLACES).any(|p| is_held(&p))),
        ("store of no nodes", asked.mesh.nodes() == 0),
        ("zero byte", name.contains(&0)),
        ("byte above 127", name.iter().any(|b| *b > 127)),
    ];
    let mut all: Vec<String> = sorts.iter().filter(|s| s.1).map(|s| s.0.into()).collect();
    for k in 0..NAME {
        let apart = |p: &usize| (0..NAME).all(|i| (shapes::name_at(store, *p)[i] != name[i]) == (i == k));
        if (0..PLACES).any(|p| is_held(&p) && apart(&p)) {
            all.push(format!("held name apart in byte {k}"));
        }
    }
    all
}

/// How the named shape of an accepted return stands to the present one.
fn nodes(asked: &Asked) -> impl Iterator<Item = &'static str> {
    let mesh = &asked.mesh;
    let place = shapes::place_of(&asked.store, asked.name).expect("a held name");
    let shape = shapes::shape_at(mesh, &asked.store, place);
    let n = mesh.nodes();
    let differ: Vec<usize> = (0..n)
        .filter(|&a| shapes::differs(mesh.node(a), shape.node(a)))
        .collect();
    let columns = [(&mesh.x, &shape.x), (&mesh.y, &shape.y), (&mesh.z, &shape.z)];
    let pairs: Vec<(f64, f64)> = columns
        .into_iter()
        .flat_map(|(a, b)| a.iter().copied().zip(b.iter().copied()))
        .collect();
    let zeros = pairs
        .iter()
        .filter(|(a, b)| a == b && a.to_bits() != b.to_bits())
        .count();
    let equal = pairs.iter().all(|(a, b)| a == b || a.is_nan() && b.is_nan());
    let payloads = |(a, b): &(f64, f64)| a.is_nan() && b.is_nan() && a.to_bits() != b.to_bits();
    let in_panel = |a: &usize| (0..mesh.panels()).any(|panel| mesh.indices(panel).contains(a));
    let sorts = [
        ("present shape", differ.is_empty()),
        ("one node differs", differ.len() == 1),
        ("several nodes differ", differ.len() > 1 && differ.len() < n),
        ("all nodes differ", n > 0 && differ.len() == n),
        ("zeros' signs alone", equal && zeros > 0),
        ("NaN with other bits", pairs.iter().any(payloads)),
        (
            "NaN with other bits alone",
            differ.is_empty() && pairs.iter().any(payloads),
        ),
        (
            "NaN against a number",
            pairs.iter().any(|(a, b)| a.is_nan() != b.is_nan()),
        ),
        ("node without panel differs", !differ.iter().all(in_panel)),
        ("such nodes alone", !differ.is_empty() && !differ.iter().any(in_panel)),
    ];
    sorts.into_iter().filter(|s| s.1).map(|s| s.0)
}
