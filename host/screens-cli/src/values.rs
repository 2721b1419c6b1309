//! Nodal values: a NumPy file of one row, or text.
use crate::failure::Failure;
use crate::npy;
use crate::numbers::{self, Numbers};
use screens::TriangleMeshView;
use std::collections::BTreeMap;
use std::path::Path;

/// The most numbers of a NumPy file: one more than can be accepted, so that the library says why.
const MOST: usize = screens::mesh::MAX_NODES + 1;

/// Reads nodal values: a NumPy file of shape (n,), or numbers parted by spaces or lines, with remarks behind #.
pub(crate) fn read(path: &Path) -> Result<Vec<f64>, Failure> {
    match numbers::read(path)? {
        Numbers::Npy(bytes) => npy::read_vector(&mut &bytes[..], path, MOST),
        Numbers::Text(text, true) => parse(&text).map_err(|what| Failure::file(path, what)),
        Numbers::Text(_, false) => Err(numbers::too_long(path, "nodal values")),
    }
}

fn parse(text: &str) -> Result<Vec<f64>, String> {
    let mut values = vec![];
    for (line, words) in numbers::lines(text) {
        for word in words {
            let value = word
                .parse()
                .map_err(|_| format!("line {line}: {word} is not a number"))?;
            values.push(value);
        }
    }
    Ok(values)
}

/// The values of a unit ring: 0 at each node of the rim, 1 at every other. One ampere then runs round the screen in the panels
/// at its rim. The rim is the edges that belong to one panel only.
pub(crate) fn unit_ring(mesh: &TriangleMeshView<'_>) -> Vec<f64> {
    let mut panels_at = BTreeMap::new();
    for i in 0..mesh.len() {
        let [a, b, c] = mesh.triangle_indices(i);
        for (p, q) in [(a, b), (b, c), (c, a)] {
            *panels_at.entry((p.min(q), p.max(q))).or_insert(0) += 1;
        }
    }
    let mut values = vec![1.0; mesh.nnode()];
    for ((p, q), count) in panels_at {
        if count == 1 {
            values[p] = 0.0;
            values[q] = 0.0;
        }
    }
    values
}

#[cfg(test)]
mod tests {
    use super::*;
    use screens::TriangleMesh;

    #[test]
    fn text_with_remarks() {
        assert_eq!(parse("1 2 # three\n\n-4e-1\n"), Ok(vec![1.0, 2.0, -0.4]));
        assert_eq!(parse("1\nx"), Err("line 2: x is not a number".to_string()));
        assert_eq!(parse(""), Ok(vec![]));
    }

    #[test]
    fn the_inner_node_of_a_fan_is_not_on_the_rim() {
        let nodes = (
            vec![0.0, 1.0, 0.0, -1.0, 0.0],
            vec![0.0, 0.0, 1.0, 0.0, -1.0],
            vec![0.0; 5],
        );
        let mesh = TriangleMesh::new(nodes, (vec![0; 4], vec![1, 2, 3, 4], vec![2, 3, 4, 1])).unwrap();
        assert_eq!(unit_ring(&mesh.view()), [1.0, 0.0, 0.0, 0.0, 0.0]);
    }
}
