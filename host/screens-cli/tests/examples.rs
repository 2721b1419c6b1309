//! The example screens (examples/) are what is made here, byte for byte. SCREENS_STORE=1 stores them. Only sums, products and
//! quotients of small numbers are used, so every machine makes the same bytes.
use std::path::Path;

/// Squares along a side.
const CELLS: u16 = 16;

/// A square metre of panels at a height that depends on x: the kept squares of a grid, each cut in two, in document 01's format.
fn screen(height: fn(f64) -> f64, keep: fn(u16, u16) -> bool) -> Vec<u8> {
    let rows_first = || (0..CELLS).flat_map(|row| (0..CELLS).map(move |column| (column, row)));
    let squares: Vec<_> = rows_first().filter(|&(column, row)| keep(column, row)).collect();
    let has_corner = |&(x, y): &(u16, u16)| {
        squares
            .iter()
            .any(|&(c, r)| (c..=c + 1).contains(&x) && (r..=r + 1).contains(&y))
    };
    // nodes row by row
    let corners = (0..=CELLS).flat_map(|y| (0..=CELLS).map(move |x| (x, y)));
    let nodes: Vec<_> = corners.filter(has_corner).collect();
    let number = |corner: (u16, u16)| nodes.iter().position(|&node| node == corner).unwrap() as u16;

    let mut file = b"PNL\x01\x00".to_vec();
    file.extend((nodes.len() as u16).to_le_bytes());
    file.extend((2 * squares.len() as u16).to_le_bytes());
    for &(column, row) in &nodes {
        let [x, y] = [column, row].map(|k| f64::from(k) / f64::from(CELLS));
        file.extend([x, y, height(x)].map(f64::to_le_bytes).as_flattened());
    }
    for &(column, row) in &squares {
        let [a, b, c, d] = [(0, 0), (1, 0), (0, 1), (1, 1)].map(|(x, y)| number((column + x, row + y)));
        file.extend([a, b, c, b, d, c].map(u16::to_le_bytes).as_flattened());
    }
    file
}

/// Each file with what makes it.
fn screens() -> [(&'static str, Vec<u8>); 3] {
    let flat = |_| 0.0;
    let whole = |_, _| true;
    let outside_hole = |column, row| !((5..11).contains(&column) && (5..11).contains(&row));
    [
        ("plate.pnl", screen(flat, whole)),
        ("bent.pnl", screen(|x| (x - 0.5) * (x - 0.5), whole)),
        ("hole.pnl", screen(flat, outside_hole)),
    ]
}

#[test]
fn the_examples_are_as_they_are_made() {
    let examples = Path::new(env!("CARGO_MANIFEST_DIR")).join("../../examples");
    for (name, made) in screens() {
        let file = examples.join(name);
        if std::env::var_os("SCREENS_STORE").is_some() {
            std::fs::write(&file, &made).unwrap();
        }
        assert!(std::fs::read(&file).unwrap() == made, "{name}");
    }
}
