//! Document 01's calls over the original's functions. A refusal is its number.
use crate::{canonical, inner, inner::Triangle};
pub use ::cases::Mesh;
use cfsem::mesh::TriangleMeshView;
use cfsem::mesh::probe_triangle3d::probe as mesh_probe;
use cfsem::physics::boundary_element as be;

pub const MAX_NODES: usize = 4096;
pub const MAX_PANELS: usize = 8192;
/// The limits of the program `density`.
pub const DENSITY_NODES: usize = 64;
pub const DENSITY_PANELS: usize = 128;

/// The original's own test and view.
pub fn view(mesh: &Mesh) -> Result<TriangleMeshView<'_>, &'static str> {
    TriangleMeshView::new((&mesh.x, &mesh.y, &mesh.z), (&mesh.a, &mesh.b, &mesh.c))
}

/// 1, 2, 11, 3, 4 in the document's order; the original has no 11.
pub fn mesh_refusal(mesh: &Mesh) -> u32 {
    mesh_refusal_within(mesh, MAX_NODES, MAX_PANELS)
}

pub fn mesh_refusal_within(mesh: &Mesh, max_nodes: usize, max_panels: usize) -> u32 {
    let (n, p) = (mesh.nodes(), mesh.panels());
    if mesh.y.len() != n || mesh.z.len() != n {
        return 1;
    }
    if mesh.b.len() != p || mesh.c.len() != p {
        return 2;
    }
    if n > max_nodes || p > max_panels {
        return 11;
    }
    match view(mesh) {
        Ok(_) => 0,
        Err("Triangle refers to non-existent node") => 3,
        Err("Triangle has zero area") => 4,
        Err(text) => panic!("{text}"),
    }
}

/// 0 as done, any other number as a refusal.
pub fn accepted(mesh: &Mesh) -> Result<(), u32> {
    match mesh_refusal(mesh) {
        0 => Ok(()),
        number => Err(number),
    }
}

pub fn kind(rule: u64) -> Result<inner::QuadratureKind, u32> {
    inner::kind(rule).ok_or(12)
}

pub fn poor_panels(mesh: &Mesh) -> u64 {
    let quality = |i: usize| mesh_probe::quality(mesh.triangle(i));
    (0..mesh.panels()).filter(|&i| quality(i) < 1e-3).count() as u64
}

/// The count of poor panels.
pub fn mesh_test(mesh: &Mesh) -> Result<u64, u32> {
    accepted(mesh)?;
    Ok(poor_panels(mesh))
}

pub fn quadrature(rule: u64, mesh: &Mesh, lengths: [usize; 4]) -> Result<[Vec<f64>; 4], u32> {
    let kind = kind(rule)?;
    accepted(mesh)?;
    let mut out = lengths.map(|l| vec![0.0; l]);
    let [x, y, z, weights] = &mut out;
    be::triangle_mesh_quadrature_points(&view(mesh).unwrap(), kind, (x, y, z), weights).map_err(|_| 6u32)?;
    Ok(out)
}

pub fn densities(mesh: &Mesh, values: &[f64], lengths: [usize; 3]) -> Result<[Vec<f64>; 3], u32> {
    accepted(mesh)?;
    let mut out = lengths.map(|l| vec![0.0; l]);
    let [x, y, z] = &mut out;
    match be::triangle_mesh_current_density(&view(mesh).unwrap(), values, (x, y, z)) {
        Ok(()) => Ok(out),
        Err("Nodal scalar dimension mismatch") => Err(5),
        Err("Output dimension mismatch") => Err(6),
        Err(text) => panic!("{text}"),
    }
}

pub fn coupling(rule: u64, s: Triangle, t: Triangle) -> Result<f64, u32> {
    let kind = kind(rule)?;
    Ok(be::triangle_geometric_coupling(
        s[0], s[1], s[2], t[0], t[1], t[2], kind,
    ))
}

/// The far rule in one direction.
pub fn coupling_regular(rule: u64, s: Triangle, t: Triangle) -> Result<f64, u32> {
    let kind = kind(rule)?;
    Ok(be::triangle_geometric_coupling_regular(
        s[0], s[1], s[2], t[0], t[1], t[2], kind,
    ))
}

pub fn block(rule: u64, s: Triangle, t: Triangle) -> Result<[[f64; 3]; 3], u32> {
    let kind = kind(rule)?;
    Ok(be::triangle_basis_mutual_inductance_block(
        s[0], s[1], s[2], t[0], t[1], t[2], kind,
    ))
}

pub fn entry(rule: u64, s: Triangle, i: u64, t: Triangle, j: u64) -> Result<f64, u32> {
    let kind = kind(rule)?;
    if i > 2 || j > 2 {
        return Err(12);
    }
    let (i, j) = (i as usize, j as usize);
    Ok(be::triangle_basis_mutual_inductance(
        s[0], s[1], s[2], i, t[0], t[1], t[2], j, kind,
    ))
}

/// The original's own matrix: (a, b) and (b, a) get the same additions in different order and may part.
pub fn original_matrix(rule: u64, mesh: &Mesh, length: usize) -> Result<Vec<f64>, u32> {
    let kind = kind(rule)?;
    accepted(mesh)?;
    let mut out = vec![f64::NAN; length];
    be::triangle_mesh_inductance_matrix(&view(mesh).unwrap(), kind, &mut out).map_err(|_| 6u32)?;
    Ok(out)
}

/// Copies the upper half down: for a below b, cell (b, a) of the n by n becomes cell (a, b).
pub fn mirror(cells: &mut [f64], n: usize) {
    for a in 0..n {
        for b in a + 1..n {
            cells[b * n + a] = cells[a * n + b];
        }
    }
}

/// The matrix that is due: the original's on and above the diagonal, its mirror below.
pub fn matrix(rule: u64, mesh: &Mesh, length: usize) -> Result<Vec<f64>, u32> {
    let mut cells = original_matrix(rule, mesh, length)?;
    mirror(&mut cells, mesh.nodes());
    Ok(cells)
}

/// Two vectors: 5, 11, 7.
pub fn energy2(matrix: &[f64], s: &[f64], t: &[f64]) -> Result<f64, u32> {
    if s.len() != t.len() {
        return Err(5);
    }
    if s.len() > MAX_NODES {
        return Err(11);
    }
    be::triangle_mesh_inductance_from_potential_vectors(matrix, s, t).map_err(|text| match text {
        "Inductance matrix dimension mismatch" => 7,
        _ => panic!("{text}"),
    })
}

pub fn energy1(matrix: &[f64], values: &[f64]) -> Result<f64, u32> {
    if values.len() > MAX_NODES {
        return Err(11);
    }
    inner::energy(matrix, values).map_err(|_| 7)
}

fn map_refusal(text: &str) -> u32 {
    match text {
        "Source coefficient dimension mismatch" => 8,
        "Inductance mapping dimension mismatch" => 9,
        "Flux-linkage output dimension mismatch" => 10,
        _ => panic!("{text}"),
    }
}

pub fn flux(map: &[f64], coefficients: &[f64], length: usize) -> Result<Vec<f64>, u32> {
    let mut out = vec![f64::NAN; length];
    be::triangle_mesh_flux_linkage_from_source_coefficients(map, coefficients, &mut out).map_err(map_refusal)?;
    Ok(out)
}

pub fn interaction(map: &[f64], values: &[f64], coefficients: &[f64]) -> Result<f64, u32> {
    be::triangle_mesh_interaction_energy_from_source_coefficients(map, values, coefficients).map_err(map_refusal)
}

/// Offset and length of a node's row in a matrix: 11, 7, 13.
pub fn row_matrix(length: usize, n: usize, node: usize) -> Result<(usize, usize), u32> {
    if n > MAX_NODES {
        return Err(11);
    }
    if length != n * n {
        return Err(7);
    }
    if node >= n {
        return Err(13);
    }
    Ok((node * n, n))
}

/// Offset and length of a node's row in a map: 8, 9, 13.
pub fn row_map(length: usize, sources: usize, node: usize) -> Result<(usize, usize), u32> {
    if sources == 0 {
        return Err(if length != 0 { 8 } else { 13 });
    }
    if !length.is_multiple_of(sources) {
        return Err(9);
    }
    if node >= length / sources {
        return Err(13);
    }
    Ok((node * sources, sources))
}

/// What a move or a return leaves.
pub struct Moved {
    pub count: u64,
    pub matrix: Vec<f64>,
    pub mesh: Mesh,
}

/// The move by its definition: the named cells are those of the moved mesh's fresh matrix; every other cell keeps its
/// number, (a, b) and (b, a) each its own.
pub fn move_node(rule: u64, mesh: &Mesh, given: &[f64], node: usize, place: [f64; 3]) -> Result<Moved, u32> {
    kind(rule)?;
    accepted(mesh)?;
    let n = mesh.nodes();
    if given.len() != n * n {
        return Err(6);
    }
    if node >= n {
        return Err(13);
    }
    let mut moved = mesh.clone();
    moved.x[node] = place[0];
    moved.y[node] = place[1];
    moved.z[node] = place[2];
    accepted(&moved)?;
    let mut changed = vec![false; n];
    changed[node] = true;
    renewed(rule, moved, given, &changed)
}

/// A mesh some of whose nodes have changed, with the matrix renewed: the cells in rows or columns of the rings of these nodes are
/// those of the mesh's fresh matrix; every other cell keeps its number.
pub fn renewed(rule: u64, mesh: Mesh, given: &[f64], changed: &[bool]) -> Result<Moved, u32> {
    let n = mesh.nodes();
    let fresh = matrix(rule, &mesh, n * n)?;
    let mut ring = vec![false; n];
    for panel in 0..mesh.panels() {
        let indices = mesh.indices(panel);
        if indices.iter().any(|&k| changed[k]) {
            for k in indices {
                ring[k] = true;
            }
        }
    }
    let mut cells = given.to_vec();
    let mut count = 0;
    for a in 0..n {
        for b in 0..n {
            if ring[a] || ring[b] {
                cells[a * n + b] = fresh[a * n + b];
                count += 1;
            }
        }
    }
    let r = ring.iter().filter(|&&holds| holds).count();
    assert_eq!(count, 2 * n * r - r * r);
    Ok(Moved {
        count: count as u64,
        matrix: cells,
        mesh,
    })
}

fn u16_at(bytes: &[u8], at: usize) -> usize {
    bytes[at] as usize | (bytes[at + 1] as usize) << 8
}

fn f64_at(bytes: &[u8], at: usize) -> f64 {
    f64::from_le_bytes(bytes[at..at + 8].try_into().unwrap())
}

/// The length in bytes of a panel file by its counts.
pub fn file_length(nodes: usize, panels: usize) -> usize {
    9 + 24 * nodes + 6 * panels
}

/// The panel file: 14, 11, 15, then the mesh. `behind` counts the f64s a node that stand behind the mesh.
fn parse(bytes: &[u8], max_nodes: usize, max_panels: usize, behind: usize) -> Result<Mesh, u32> {
    if bytes.len() < 9 || &bytes[0..3] != b"PNL" || u16_at(bytes, 3) != 1 {
        return Err(14);
    }
    let (n, p) = (u16_at(bytes, 5), u16_at(bytes, 7));
    if n > max_nodes || p > max_panels {
        return Err(11);
    }
    if bytes.len() != file_length(n, p) + 8 * behind * n {
        return Err(15);
    }
    let mut mesh = Mesh::default();
    for i in 0..n {
        mesh.add_node([0, 8, 16].map(|k| f64_at(bytes, 9 + 24 * i + k)));
    }
    for i in 0..p {
        mesh.add_panel([0, 2, 4].map(|k| u16_at(bytes, 9 + 24 * n + 6 * i + k)));
    }
    match mesh_refusal_within(&mesh, max_nodes, max_panels) {
        0 => Ok(mesh),
        number => Err(number),
    }
}

pub fn read_file(bytes: &[u8], lengths: [usize; 6]) -> Result<Mesh, u32> {
    let mesh = parse(bytes, MAX_NODES, MAX_PANELS, 0)?;
    let (n, p) = (mesh.nodes(), mesh.panels());
    if lengths != [n, n, n, p, p, p] {
        return Err(6);
    }
    Ok(mesh)
}

/// What the program `density` writes for what it reads.
pub fn density_program(bytes: &[u8]) -> Vec<u8> {
    let mesh = match parse(bytes, DENSITY_NODES, DENSITY_PANELS, 1) {
        Ok(mesh) => mesh,
        Err(number) => return format!("refused {number}\n").into_bytes(),
    };
    let (n, p) = (mesh.nodes(), mesh.panels());
    let behind = file_length(n, p);
    let values: Vec<f64> = (0..n).map(|i| f64_at(bytes, behind + 8 * i)).collect();
    let density = densities(&mesh, &values, [p; 3]).unwrap();
    let mut text = format!("PNL 1 {n} {p}\n");
    for i in 0..p {
        let [x, y, z] = [0, 1, 2].map(|k| canonical(density[k][i]));
        text += &format!("{i} {x:016x} {y:016x} {z:016x}\n");
    }
    text.into_bytes()
}

/// The panel file of a mesh: the mesh test, 6, then every NaN as one number.
pub fn write_file(mesh: &Mesh, length: usize) -> Result<Vec<u8>, u32> {
    accepted(mesh)?;
    if length != file_length(mesh.nodes(), mesh.panels()) {
        return Err(6);
    }
    let mut written = mesh.clone();
    for column in [&mut written.x, &mut written.y, &mut written.z] {
        column.iter_mut().for_each(|x| *x = f64::from_bits(canonical(*x)));
    }
    let bytes = encode(&written, None).expect("counts and indices of an accepted mesh");
    assert_eq!(bytes.len(), length);
    Ok(bytes)
}

/// The layout of the panel file for any mesh, tested or not, its numbers with the bits that they have, and with values behind
/// it if there are any; none if a count or an index is above 16 bits.
pub fn encode(mesh: &Mesh, values: Option<&[f64]>) -> Option<Vec<u8>> {
    let mut bytes = b"PNL\x01\x00".to_vec();
    bytes.extend(u16::try_from(mesh.nodes()).ok()?.to_le_bytes());
    bytes.extend(u16::try_from(mesh.panels()).ok()?.to_le_bytes());
    for i in 0..mesh.nodes() {
        for coordinate in mesh.node(i) {
            bytes.extend(coordinate.to_le_bytes());
        }
    }
    for i in 0..mesh.panels() {
        for index in mesh.indices(i) {
            bytes.extend(u16::try_from(index).ok()?.to_le_bytes());
        }
    }
    for value in values.unwrap_or(&[]) {
        bytes.extend(value.to_le_bytes());
    }
    Some(bytes)
}

/// The display value by whole numbers: the exact value times 10^9, halves to even; 16 if not finite or above 10^15.
pub fn display(x: f64) -> Result<i64, u32> {
    if !x.is_finite() {
        return Err(16);
    }
    let bits = x.to_bits();
    let field = (bits >> 52 & 0x7ff) as i32;
    let fraction = bits & ((1 << 52) - 1);
    let (significand, exponent) = match field {
        0 => (fraction, -1074),
        _ => (fraction | 1 << 52, field - 1075),
    };
    let product = significand as u128 * 1_000_000_000; // below 2^83
    let size = if product == 0 || -exponent >= 127 {
        0 // below one half
    } else if exponent >= 0 {
        return Err(16); // at least 2^52 * 10^9
    } else {
        let half = 1u128 << (-exponent - 1);
        let (below, rest) = (product >> -exponent, product & (2 * half - 1));
        // one more above a half, and at a half if that makes it even
        below + u128::from(rest > half || rest == half && below % 2 == 1)
    };
    if size > 1_000_000_000_000_000 {
        return Err(16);
    }
    Ok(if x.is_sign_negative() {
        -(size as i64)
    } else {
        size as i64
    })
}
