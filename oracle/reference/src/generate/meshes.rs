//! Meshes, whole and damaged.
use super::numbers::{any_number, easily_lost, ulps};
use super::panels::{Style, area_edge, point, quality_edge, style};
use crate::calls::Mesh;
use crate::inner::Triangle;
use crate::rng::Rng;
use cfsem::mesh::probe_triangle3d::probe as mesh_probe;

/// A mesh of at most so many nodes and panels: patches, strips, scattered or repeated panels, isolated nodes, awkward
/// coordinates. Panels that the mesh test would refuse are mostly dropped, so that accepted meshes dominate.
pub fn mesh(r: &mut Rng, max_nodes: usize, max_panels: usize) -> Mesh {
    let mut mesh = match r.below(14) {
        0 => return isolated_nodes(r),
        1..=4 => patch(r, max_nodes, max_panels),
        5 => two_plates(r),
        6 => repeated_panel(r, max_panels),
        9 => repeated_indices(r, max_panels),
        10 | 11 => scattered(r, max_nodes),
        12 | 13 => strip(r, max_nodes, max_panels),
        _ => any_panels(r, max_nodes, max_panels),
    };
    if !r.one_in(8) {
        let refused = |i: usize| mesh_probe::area(mesh.triangle(i)) < 1e-14;
        let kept: Vec<_> = (0..mesh.panels())
            .filter(|&i| !refused(i))
            .map(|i| mesh.indices(i))
            .collect();
        (mesh.a, mesh.b, mesh.c) = Default::default();
        for indices in kept {
            mesh.add_panel(indices);
        }
    }
    mesh
}

fn isolated_nodes(r: &mut Rng) -> Mesh {
    let mut mesh = Mesh::default();
    for _ in 0..r.index(4) * r.index(2) {
        mesh.add_node(point(r, Style::Special));
    }
    mesh
}

/// Squares cut in two, flat or uneven; then nodes without panels, and sometimes any number for a coordinate.
fn patch(r: &mut Rng, max_nodes: usize, max_panels: usize) -> Mesh {
    let mut mesh = Mesh::default();
    let (wide, high) = (2 + r.index(2), 2 + r.index(2));
    let high = if wide * high > max_nodes { 2 } else { high };
    let (scale, uneven) = (r.pick(&[1.0, 1.0, 0.5, 0.3, 1e-6, 3.0]), r.pick(&[0.0, 0.0, 0.2]));
    for j in 0..high {
        for i in 0..wide {
            mesh.add_node([i as f64 * scale, j as f64 * scale, uneven * r.signed() * scale]);
        }
    }
    for j in 0..high - 1 {
        for i in 0..wide - 1 {
            if mesh.panels() + 2 <= max_panels {
                let k = j * wide + i;
                mesh.add_panel([k, k + 1, k + wide]);
                mesh.add_panel([k + 1, k + wide + 1, k + wide]);
            }
        }
    }
    while mesh.nodes() < max_nodes && r.one_in(3) {
        mesh.add_node(point(r, Style::Special));
    }
    if r.one_in(6) {
        let k = r.index(mesh.nodes());
        let place = coordinate(r, &mut mesh, k);
        *place = any_number(r);
    }
    mesh
}

/// One of a node's three coordinates.
pub fn coordinate<'a>(r: &mut Rng, mesh: &'a mut Mesh, node: usize) -> &'a mut f64 {
    let column = match r.index(3) {
        0 => &mut mesh.x,
        1 => &mut mesh.y,
        _ => &mut mesh.z,
    };
    &mut column[node]
}

/// Two unit panels apart or one above the other, near, far and on the limit; sometimes one of them twice.
fn two_plates(r: &mut Rng) -> Mesh {
    let mut mesh = Mesh::default();
    let edge = std::f64::consts::SQRT_2;
    let apart = r.pick(&[
        [0.0, 0.0, 0.5],
        [0.0, 0.0, 1.0],
        [3.0, 0.0, 0.0],
        [0.0, 0.0, edge],
        [0.0, 0.0, ulps(edge, 1)],
        [5.0, 5.0, 5.0],
    ]);
    let unit = [[0.0, 0.0, 0.0], [1.0, 0.0, 0.0], [0.0, 1.0, 0.0]];
    add_triangle(&mut mesh, unit);
    add_triangle(&mut mesh, unit.map(|p| std::array::from_fn(|k| p[k] + apart[k])));
    if r.one_in(2) {
        mesh.add_panel([5, 3, 4]);
    }
    mesh
}

/// One panel several times with its corners turned, and a neighbour.
fn repeated_panel(r: &mut Rng, max_panels: usize) -> Mesh {
    let mut mesh = Mesh::default();
    for corner in [[0.0, 0.0, 0.0], [1.0, 0.0, 0.0], [0.25, 1.0, 0.5], [0.0, 0.0, 1.0]] {
        mesh.add_node(corner);
    }
    for _ in 0..1 + r.index(max_panels.min(5)) {
        mesh.add_panel(r.pick(&[[0, 1, 2], [1, 2, 0], [2, 1, 0], [0, 1, 3], [3, 1, 0]]));
    }
    mesh
}

/// Repeated indices where the rounding of the cross product can leave an area above 1e-14.
fn repeated_indices(r: &mut Rng, max_panels: usize) -> Mesh {
    let mut mesh = Mesh::default();
    let n = 3 + r.index(3);
    for _ in 0..n {
        mesh.add_node(point(r, Style::Tenths));
    }
    for _ in 0..1 + r.index(max_panels.min(5)) {
        let (a, b, c) = (r.index(n), r.index(n), r.index(n));
        mesh.add_panel(r.pick(&[[a, b, b], [a, b, a], [a, a, b], [a, b, c]]));
    }
    mesh
}

/// Panels of several sizes, mostly far from each other, some joined.
fn scattered(r: &mut Rng, max_nodes: usize) -> Mesh {
    let mut mesh = Mesh::default();
    for _ in 0..max_nodes / 3 {
        let centre: [f64; 3] = std::array::from_fn(|_| r.range(-3, 3) as f64);
        let scale = r.pick(&[0.25, 0.5, 1.0, 1.0, 2.0]);
        let k = mesh.nodes();
        let corners = std::array::from_fn(|_| {
            let s = r.pick(&[Style::Uniform, Style::Half]);
            let corner = point(r, s);
            std::array::from_fn(|axis| centre[axis] + scale * corner[axis])
        });
        add_triangle(&mut mesh, corners);
        if k >= 3 && r.one_in(3) {
            mesh.add_panel([k, r.index(k), k + 1]);
        }
    }
    mesh
}

/// Long enough that its ends are far from each other.
fn strip(r: &mut Rng, max_nodes: usize, max_panels: usize) -> Mesh {
    let mut mesh = Mesh::default();
    let mut x = 0.0;
    for _ in 0..max_nodes / 2 {
        mesh.add_node([x, 0.0, 0.1 * r.signed()]);
        mesh.add_node([x + 0.2 * r.signed(), 1.0, 0.0]);
        x += r.pick(&[0.5, 0.75, 1.0, 1.0]);
    }
    for k in (0..mesh.nodes() - 2).step_by(2).take(max_panels / 2) {
        mesh.add_panel([k, k + 2, k + 1]);
        mesh.add_panel([k + 1, k + 2, k + 3]);
    }
    mesh
}

fn any_panels(r: &mut Rng, max_nodes: usize, max_panels: usize) -> Mesh {
    let mut mesh = Mesh::default();
    let s = style(r);
    let n = 3 + r.index(max_nodes - 2);
    for _ in 0..n {
        mesh.add_node(point(r, s));
    }
    for _ in 0..r.index(max_panels + 1) {
        mesh.add_panel([r.index(n), r.index(n), r.index(n)]);
    }
    mesh
}

/// An accepted sheet of so many nodes: squares cut in two, row after row of four to six nodes, uneven; the last row may not be
/// full. Neighbours are near, the others far.
pub fn sheet(r: &mut Rng, nodes: usize) -> Mesh {
    let mut mesh = Mesh::default();
    let wide = 4 + r.index(3);
    let (scale, uneven) = (r.pick(&[1.0, 0.5, 0.3, 3.0]), r.pick(&[0.0, 0.1, 0.2]));
    for k in 0..nodes {
        let [x, y] = [k % wide, k / wide].map(|i| (i as f64 + uneven * r.signed()) * scale);
        mesh.add_node([x, y, uneven * r.signed() * scale]);
    }
    for k in (0..nodes).filter(|k| k % wide + 1 < wide && k + wide + 1 < nodes) {
        for mut panel in [[k, k + 1, k + wide], [k + 1, k + wide + 1, k + wide]] {
            panel.rotate_left(r.index(3));
            mesh.add_panel(panel);
        }
    }
    mesh
}

/// The screen of nodes (i, j, 0), i and j from 0 to 2, each square cut in two: cells (1, 4) and (4, 1) of its matrix part in the
/// original.
pub fn three_by_three() -> Mesh {
    let mut mesh = Mesh::default();
    for k in 0..9 {
        mesh.add_node([(k % 3) as f64, (k / 3) as f64, 0.0]);
    }
    for k in [0, 1, 3, 4] {
        mesh.add_panel([k, k + 1, k + 3]);
        mesh.add_panel([k + 1, k + 4, k + 3]);
    }
    mesh
}

/// So many nodes, and one panel so many times.
pub fn filled(nodes: usize, panels: usize) -> Mesh {
    let mut mesh = Mesh::default();
    for i in 0..nodes {
        mesh.add_node([(i % 3 == 1) as u8 as f64, (i % 3 == 2) as u8 as f64, 0.0]);
    }
    for _ in 0..panels {
        mesh.add_panel([0, 1, 2]);
    }
    mesh
}

/// Gives one of three columns another length: one more, one less, none, or twice as many.
fn resize<T: Copy>(r: &mut Rng, columns: [&mut Vec<T>; 3], more: T) {
    let column = columns.into_iter().nth(r.index(3)).unwrap();
    let length = column.len();
    column.resize(r.pick(&[length + 1, length.saturating_sub(1), 0, 2 * length]), more);
}

/// Damages column lengths, indices and coordinates, sometimes two of them.
fn damage(r: &mut Rng, mesh: &mut Mesh) {
    for _ in 0..if r.one_in(3) { 2 } else { 1 } {
        let (n, p) = (mesh.nodes(), mesh.panels());
        match r.below(10) {
            0..3 => resize(r, [&mut mesh.x, &mut mesh.y, &mut mesh.z], 1.0),
            3..6 => resize(r, [&mut mesh.a, &mut mesh.b, &mut mesh.c], 0),
            6 | 7 if p > 0 => {
                // missing node
                let k = r.index(p);
                let column = r.pick(&[0, 1, 2]);
                let column = [&mut mesh.a, &mut mesh.b, &mut mesh.c].into_iter().nth(column).unwrap();
                if let Some(index) = column.get_mut(k) {
                    *index = r.pick(&[n, n + 1, usize::MAX, 1 << 32, 65536]);
                }
            }
            8 if p > 0 => {
                // mostly zero area
                let k = r.index(p);
                if let Some(index) = mesh.b.get_mut(k) {
                    *index = mesh.a[k];
                }
            }
            9 if n > 0 => mesh.x[r.index(n)] = r.pick(&[f64::NAN, f64::INFINITY, f64::NEG_INFINITY]),
            _ => {}
        }
    }
}

/// Whether the columns of nodes, and those of panels, have one length.
pub fn whole(mesh: &Mesh) -> bool {
    let (n, p) = (mesh.nodes(), mesh.panels());
    mesh.y.len() == n && mesh.z.len() == n && mesh.b.len() == p && mesh.c.len() == p
}

fn add_triangle(mesh: &mut Mesh, t: Triangle) {
    let k = mesh.nodes();
    for corner in t {
        mesh.add_node(corner);
    }
    mesh.add_panel([k, k + 1, k + 2]);
}

/// A mesh, damaged once in so many.
pub fn damaged_one_in(r: &mut Rng, n: u64, max_nodes: usize, max_panels: usize) -> Mesh {
    let mut mesh = mesh(r, max_nodes, max_panels);
    if r.one_in(n) {
        damage(r, &mut mesh);
    }
    mesh
}

/// A mesh for the mesh test: often with a panel whose area lies around 1e-14 or whose quality lies around 1e-3.
pub fn tested(r: &mut Rng) -> Mesh {
    let mut mesh = damaged_one_in(r, 3, 9, 8);
    if r.one_in(3) && whole(&mesh) {
        let height = r.pick(&[
            2e-14,
            1.9999999999999997e-14,
            2.0000000000000003e-14,
            5.7735e-4,
            5.7736e-4,
            1.1547e-3,
            1.1548e-3,
            1e-5,
        ]);
        add_triangle(&mut mesh, [[0.0, 0.0, 0.0], [1.0, 0.0, 0.0], [0.0, height, 0.0]]);
    }
    if r.one_in(6) && whole(&mesh) {
        add_triangle(&mut mesh, quality_edge(r));
    }
    if r.one_in(6) && whole(&mesh) {
        add_triangle(&mut mesh, area_edge(r));
    }
    mesh
}

/// A mesh for the calls that fill columns: mostly accepted, sometimes one for the mesh test.
pub fn for_columns(r: &mut Rng) -> Mesh {
    if r.one_in(4) {
        tested(r)
    } else {
        damaged_one_in(r, 5, 8, 6)
    }
}

/// A mesh to be written: sometimes damaged; sometimes with a coordinate whose bits are easily lost, on any node or on one
/// without panels, where the mesh test does not look; seldom one whose counts and indices take both of their bytes.
pub fn to_write(r: &mut Rng) -> Mesh {
    if r.one_in(200) {
        let nodes = r.pick(&[255, 256, 257, 1000, 4096]);
        return sheet(r, nodes);
    }
    let mut mesh = damaged_one_in(r, 3, 9, 8);
    if r.one_in(6) && whole(&mesh) {
        let alone = mesh.nodes() == 0 || r.one_in(2);
        if alone {
            mesh.add_node([1.0; 3]);
        }
        let n = mesh.nodes();
        let node = if alone { n - 1 } else { r.index(n) };
        let place = coordinate(r, &mut mesh, node);
        *place = easily_lost(r);
    }
    mesh
}

/// Mostly the length due.
pub fn length_near(r: &mut Rng, due: usize) -> usize {
    if r.one_in(6) {
        r.pick(&[due + 1, due.saturating_sub(1), 0, 2 * due])
    } else {
        due
    }
}

/// Mostly 1 to 5.
pub fn rule(r: &mut Rng) -> u64 {
    if r.one_in(12) {
        r.pick(&[0, 6, 7, u64::MAX])
    } else {
        r.range(1, 5) as u64
    }
}
