//! Checks the oracle by itself: document 01's bench sheet, panel files by their bytes, the findings of docs/DIFFERENCES.md, the
//! cells below a matrix's diagonal, the named shapes, the constants and tables that a port needs, and the count of poor panels
//! against the count in the original's own warning.
mod shapes;

use crate::calls::{self, Mesh};
use crate::inner::{self, Panel, Triangle};
use crate::{canonical, eval::Out, generate, rng::Rng};
use cfsem::physics::boundary_element as be;
use num_traits::standin;
use std::hint::black_box;

const UNIT: Triangle = [[0.0; 3], [1.0, 0.0, 0.0], [0.0, 1.0, 0.0]];
const THREE_FOUR_FIVE: Triangle = [[0.0; 3], [3.0, 0.0, 0.0], [0.0, 4.0, 0.0]];

fn hex(x: f64) -> String {
    format!("{:016x}", canonical(x))
}

/// Prints a line a check and counts those that differ.
struct Sheet {
    differ: usize,
}

impl Sheet {
    fn line(&mut self, what: &str, due: &str, got: impl std::fmt::Display) {
        let got = got.to_string();
        let verdict = if got == due { "ok" } else { "DIFFERS" };
        self.differ += (got != due) as usize;
        println!("{verdict:8} {what}: {got}");
        if got != due {
            println!("         due: {due}");
        }
    }
}

/// Whether every line that has a due answer got it.
pub fn run() -> bool {
    let mut sheet = Sheet { differ: 0 };
    bench_sheet(&mut sheet);
    panel_files(&mut sheet);
    findings(&mut sheet);
    below_the_diagonal(&mut sheet);
    shapes::shapes(&mut sheet);
    warnings(&mut sheet);
    constants();
    standins_against_std();
    println!("\n{} lines differ", sheet.differ);
    sheet.differ == 0
}

fn bench_sheet(sheet: &mut Sheet) {
    println!("Document 01's bench sheet");
    let small = 2f64.powi(-30);
    let fused = black_box(1.0 + small).mul_add(black_box(1.0 - small), black_box(-1.0));
    sheet.line("fused (1 + 2^-30)(1 - 2^-30) - 1", &hex(-2f64.powi(-60)), hex(fused));
    sheet.line("sqrt(-0)", &hex(-0.0), hex(black_box(-0.0f64).sqrt()));
    sheet.line("sqrt 2", "3ff6a09e667f3bcd", hex(black_box(2.0f64).sqrt()));

    let corner = |y: f64| calls::mesh_refusal(&Mesh::of_panel([[0.0; 3], [1.0, 0.0, 0.0], [0.0, y, 0.0]]));
    sheet.line("corner (0,2e-14,0)", "0", corner(2e-14));
    sheet.line("corner (0,1.9e-14,0)", "4", corner(1.9e-14));
    sheet.line("NaN area", "0", corner(f64::NAN));
    sheet.line("infinite area", "0", corner(f64::INFINITY));

    let raised = |z: f64| THREE_FOUR_FIVE.map(|p| [p[0], p[1], z]);
    let class = |z: f64| ["identical", "far", "far", "near"][inner::class(THREE_FOUR_FIVE, raised(z)) as usize];
    sheet.line("3-4-5 panel raised by 5", "near", class(5.0));
    sheet.line(
        "3-4-5 panel raised by 5.000000000000001",
        "far",
        class(5.000000000000001),
    );
    // The same from the public coupling: only the far rule depends on the quadrature rule.
    let coupling = |rule: u64, z: f64| canonical(calls::coupling(rule, THREE_FOUR_FIVE, raised(z)).unwrap());
    let same = |z: f64| (2..=5).all(|rule| coupling(rule, z) == coupling(1, z));
    sheet.line("couplings equal under all rules, raised by 5", "true", same(5.0));
    sheet.line(
        "couplings equal under all rules, raised by 5.000000000000001",
        "false",
        same(5.000000000000001),
    );

    let halves =
        "[[[1.0, 0.0, 0.0], [0.5, 0.5, 0.0], [0.0, 0.0, 0.0]], [[0.5, 0.5, 0.0], [0.0, 1.0, 0.0], [0.0, 0.0, 0.0]]]";
    sheet.line(
        "unit panel splits between corners 1 and 2",
        halves,
        format!("{:?}", inner::bisect(UNIT)),
    );
    let map = [1.0, 2.0, 3.0, 4.0];
    let flux = calls::flux(&map, &[5.0, 6.0], 2);
    sheet.line(
        "map 1 2 3 4, coefficients 5 6: flux",
        "Ok([17.0, 39.0])",
        format!("{flux:?}"),
    );
    let energy = calls::interaction(&map, &[1.0, 1.0], &[5.0, 6.0]);
    sheet.line("values 1 1: energy", "Ok(56.0)", format!("{energy:?}"));
    sheet.line(
        "no sources, one output",
        "Err(8)",
        format!("{:?}", calls::flux(&[], &[], 1)),
    );
    let identity = [1.0, 0.0, 0.0, 1.0];
    let energy = calls::energy1(&identity, &[3.0, 4.0]);
    sheet.line("identity 2 by 2, values 3 4: energy", "Ok(12.5)", format!("{energy:?}"));
    let energy = calls::energy2(&identity, &[3.0, 4.0], &[3.0, 4.0]);
    sheet.line("the same with two vectors", "Ok(25.0)", format!("{energy:?}"));

    let mut display = |what: &str, x: f64, due: &str| {
        sheet.line(&format!("display of {what}"), due, format!("{:?}", calls::display(x)));
    };
    let past = |k: u64| f64::from_bits(1e6f64.to_bits() + k);
    display("1/1024", 1.0 / 1024.0, "Ok(976562)");
    display("-1/1024", -1.0 / 1024.0, "Ok(-976562)");
    display("3/1024", 3.0 / 1024.0, "Ok(2929688)");
    display("-3/1024", -3.0 / 1024.0, "Ok(-2929688)");
    display("5/1024", 5.0 / 1024.0, "Ok(4882812)");
    display("7/1024", 7.0 / 1024.0, "Ok(6835938)");
    display("-0", -0.0, "Ok(0)");
    display("1e6", 1e6, "Ok(1000000000000000)");
    display("1e6 and one place (1e15 + 0.12)", past(1), "Ok(1000000000000000)");
    display("1e6 and five places (1e15 + 0.58)", past(5), "Err(16)");
    display("infinity", f64::INFINITY, "Err(16)");

    let file = calls::encode(&Mesh::of_panel(UNIT), Some(&[1.0, 2.0, 4.0])).unwrap();
    sheet.line("length of the sample file", "111", file.len());
    let printed = String::from_utf8(calls::density_program(&file)).unwrap();
    let due = "PNL 1 3 1\n0 c008000000000000 3ff0000000000000 0000000000000000\n";
    sheet.line(
        "density of the sample file",
        &format!("{due:?}"),
        format!("{printed:?}"),
    );
    let empty = calls::matrix(1, &Mesh::default(), 0);
    sheet.line("matrix of the empty mesh", "Ok([])", format!("{empty:?}"));
    let mut mesh = Mesh::of_panel([[0.0; 3], [1.0, 0.0, 0.0], [1.0, 0.0, 0.0]]);
    mesh.add_panel([0, 1, 9]);
    sheet.line(
        "zero area in panel 0, missing node in panel 1",
        "3",
        calls::mesh_refusal(&mesh),
    );
    mesh.b = vec![0; 65536];
    mesh.c = mesh.b.clone();
    mesh.a = mesh.b.clone();
    sheet.line(
        "file of 65536 panels",
        "None",
        format!("{:?}", calls::encode(&mesh, None)),
    );
}

/// The file that is due of a mesh, or the refusal's number.
fn written(mesh: &Mesh) -> Result<Vec<u8>, u32> {
    calls::write_file(mesh, calls::file_length(mesh.nodes(), mesh.panels()))
}

/// Bytes in hexadecimal, two digits a byte.
fn dump(bytes: &[u8]) -> String {
    bytes.iter().map(|byte| format!("{byte:02x}")).collect()
}

/// Files by their bytes, worked out by hand from document 01's layout.
fn panel_files(sheet: &mut Sheet) {
    println!("\nPanel files");
    let mut square = Mesh::default();
    for node in [[0.0, 0.0, 3.0], [1.0, 0.0, 3.0], [0.0, 1.0, 3.0], [1.0, 1.0, 3.0]] {
        square.add_node(node);
    }
    square.add_panel([0, 1, 2]);
    square.add_panel([1, 3, 2]);
    let [zero, one, three] = ["0000000000000000", "000000000000f03f", "0000000000000840"];
    let nodes = [zero, zero, three, one, zero, three, zero, one, three, one, one, three].concat();
    let due = format!("504e4c010004000200{nodes}000001000200010003000200");
    sheet.line("file of a square, two panels", &due, dump(&written(&square).unwrap()));
    let empty = written(&Mesh::default()).unwrap();
    sheet.line("file of the empty mesh", "504e4c010000000000", dump(&empty));

    let mut long = Mesh::default();
    (0..4096).for_each(|k| long.add_node([k as f64, (k * k) as f64, 0.0]));
    long.add_panel([4095, 256, 1]);
    let bytes = written(&long).unwrap();
    sheet.line(
        "first nine bytes of 4096 nodes, one panel",
        "504e4c010000100100",
        dump(&bytes[..9]),
    );
    sheet.line("its panel 4095 256 1", "ff0f00010100", dump(&bytes[bytes.len() - 6..]));

    numbers_and_refusals(sheet);
    there_and_back(sheet);
}

/// A node's numbers in a file, and what is not written.
fn numbers_and_refusals(sheet: &mut Sheet) {
    let mut one = Mesh::default();
    one.add_node([0xfff0_0000_0000_0001, 1 << 63, 0x8000_0000_0000_0001].map(f64::from_bits));
    let due = "504e4c010001000000000000000000f87f00000000000000800100000000000080";
    sheet.line(
        "file of the node (NaN, -0, -5e-324)",
        due,
        dump(&written(&one).unwrap()),
    );

    let refused = [0, 32, 34].map(|length| calls::write_file(&one, length));
    sheet.line(
        "the same of length 0, 32, 34",
        "[Err(6), Err(6), Err(6)]",
        format!("{refused:?}"),
    );
    one.add_panel([0, 1, 0]);
    let refused = calls::write_file(&one, 0);
    sheet.line("with a missing node, of length 0", "Err(3)", format!("{refused:?}"));
}

/// The reference's writer and reader, which have only the length in common, on each other's answers.
fn there_and_back(sheet: &mut Sheet) {
    let (mut of_meshes, mut of_files) = (vec![], vec![]);
    let words = |mesh: &Mesh| Out::default().columns(mesh).0;
    for mesh in meshes(1, MESHES) {
        let Ok(file) = written(&mesh) else { continue };
        let (n, p) = (mesh.nodes(), mesh.panels());
        let read = |file: &[u8]| calls::read_file(file, [n, n, n, p, p, p]);
        of_meshes.push(read(&file).map(|back| words(&back)) == Ok(words(&mesh)));
        if ![&mesh.x, &mesh.y, &mesh.z].into_iter().flatten().any(|x| x.is_nan()) {
            let file = calls::encode(&mesh, None).unwrap();
            of_files.push(read(&file).and_then(|back| written(&back)) == Ok(file));
        }
    }
    println!(
        "{} meshes written and read, {} files without NaN read and written",
        of_meshes.len(),
        of_files.len()
    );
    let otherwise = |given_back: &[bool]| given_back.iter().filter(|same| !**same).count();
    sheet.line("meshes that are not given back", "0", otherwise(&of_meshes));
    sheet.line("files that are not given back", "0", otherwise(&of_files));
}

fn findings(sheet: &mut Sheet) {
    println!("\nWhat the Rust does that may surprise");
    let unit = Panel::new(UNIT);
    sheet.line(
        "contact of the unit panel at (-1e155,-1e155,0)",
        "true",
        unit.contact([-1e155, -1e155, 0.0]),
    );
    sheet.line(
        "contact of the unit panel at (-1e153,-1e153,0)",
        "false",
        unit.contact([-1e153, -1e153, 0.0]),
    );
    sheet.line(
        "its potential at (0.25,1e-170,0)",
        "inf",
        unit.potential([0.25, 1e-170, 0.0]),
    );
    let finite = [[0.25, 0.0, 0.0], [0.25, 1e-100, 0.0], [0.0; 3]].map(|p| unit.potential(p).is_finite());
    sheet.line(
        "finite at (0.25,0,0), (0.25,1e-100,0), corner 0",
        "[true, true, true]",
        format!("{finite:?}"),
    );
    sheet.line(
        "its gradient at corner 0",
        "[NaN, NaN, NaN]",
        format!("{:?}", unit.gradient([0.0; 3])),
    );
    sheet.line(
        "its gradient at (0.25,0,0)",
        "[NaN, inf, NaN]",
        format!("{:?}", unit.gradient([0.25, 0.0, 0.0])),
    );
    sheet.line(
        "asinh of the least numbers",
        "[0.0, -0.0]",
        format!("{:?}", [5e-324, -5e-324].map(standin::asinh)),
    );

    let repeated = |indices: [usize; 3]| {
        let mut mesh = Mesh::default();
        mesh.add_node([0.0; 3]);
        mesh.add_node([100.1, 100.3, 0.0]);
        mesh.add_panel(indices);
        calls::mesh_refusal(&mesh)
    };
    let got = [[0, 1, 1], [0, 1, 0], [0, 0, 1]].map(repeated);
    sheet.line(
        "nodes (0,0,0), (100.1,100.3,0), panels 0 1 1, 0 1 0, 0 0 1",
        "[0, 4, 4]",
        format!("{got:?}"),
    );
    let area = |t: Triangle| {
        format!(
            "{:?} {}",
            be::calc_tri_area(t[0], t[1], t[2]),
            calls::mesh_refusal(&Mesh::of_panel(t))
        )
    };
    let wide = [[-1.7e308, 0.0, 0.0], [1.7e308, 0.0, 0.0], [0.0, 1.0, 0.0]];
    sheet.line(
        "area and refusal of (-1.7e308,0,0), (1.7e308,0,0), (0,1,0)",
        "NaN 0",
        area(wide),
    );
    let large = [[0.0; 3], [1e200, 1e200, 0.0], [1e200, 1e200, 1.0]];
    sheet.line(
        "area and refusal of (0,0,0), (1e200,1e200,0), (1e200,1e200,1)",
        "inf 0",
        area(large),
    );

    let point = [[0.0; 3]; 3];
    let both = [inner::identical(point, UNIT), inner::identical(UNIT, point)];
    sheet.line(
        "one corner three times, identical to the unit panel, and the other way",
        "[true, false]",
        format!("{both:?}"),
    );
    let nan = [[f64::NAN; 3]; 3];
    sheet.line(
        "class of an all-NaN panel and the unit panel (2: far)",
        "2",
        inner::class(nan, UNIT),
    );
    let inf = f64::INFINITY;
    let half = inner::bisect([[inf, 0.0, 0.0], [inf, 1.0, 0.0], [0.0; 3]])[0];
    sheet.line(
        "first half where edge 0 is NaN long (split there)",
        "[[inf, 0.0, 0.0], [inf, 0.5, 0.0], [0.0, 0.0, 0.0]]",
        format!("{half:?}"),
    );

    let mut apart = Mesh::of_panel(UNIT);
    apart.add_node([9.0; 3]);
    let count = |node: usize, place: [f64; 3]| calls::move_node(1, &apart, &[7.0; 16], node, place).map(|m| m.count);
    sheet.line(
        "cells of a move to (NaN,0,0)",
        "Ok(15)",
        format!("{:?}", count(0, [f64::NAN, 0.0, 0.0])),
    );
    sheet.line(
        "cells of a move of a node without panels",
        "Ok(0)",
        format!("{:?}", count(3, [0.0; 3])),
    );
    sheet.line(
        "a move onto another corner",
        "Err(4)",
        format!("{:?}", count(0, [1.0, 0.0, 0.0])),
    );

    let numbers = [0.0, -0.0, f64::NAN, 1.0];
    let table = |f: fn(f64, f64) -> f64| {
        let row = |a: f64| {
            numbers
                .map(|b| format!("{:?}", f(black_box(a), black_box(b))))
                .join(" ")
        };
        numbers.map(row).join(", ")
    };
    sheet.line(
        "min of 0 -0 NaN 1 with each of them",
        "0.0 0.0 0.0 0.0, -0.0 -0.0 -0.0 -0.0, 0.0 -0.0 NaN 1.0, 0.0 -0.0 1.0 1.0",
        table(f64::min),
    );
    sheet.line(
        "max of 0 -0 NaN 1 with each of them",
        "0.0 0.0 0.0 1.0, -0.0 -0.0 -0.0 1.0, 0.0 -0.0 NaN 1.0, 1.0 1.0 1.0 1.0",
        table(f64::max),
    );
    let clamped = [-0.0, f64::NAN, -1.0, 2.0].map(|x: f64| black_box(x).clamp(black_box(0.0), black_box(1.0)));
    sheet.line(
        "clamp of -0, NaN, -1, 2 to 0 and 1",
        "[-0.0, NaN, 0.0, 1.0]",
        format!("{clamped:?}"),
    );
}

/// The 3 by 3 screen, where cells (1,4) and (4,1) part in the original: the matrix that is due, and a move from any numbers; and
/// energies, which sum all cells as they are.
fn below_the_diagonal(sheet: &mut Sheet) {
    println!("\nCells below the diagonal");
    let screen = generate::three_by_three();
    let two = |cells: Vec<f64>| format!("{} {}", hex(cells[9 + 4]), hex(cells[4 * 9 + 1]));
    for rule in 1..=5 {
        sheet.line(
            &format!("(1,4) and (4,1) of the 3 by 3 screen, the original's, rule {rule}"),
            "be8144fcf44d1fe8 be8144fcf44d1fe9",
            two(calls::original_matrix(rule, &screen, 81).unwrap()),
        );
        sheet.line(
            &format!("the same cells that are due, rule {rule}"),
            "be8144fcf44d1fe8 be8144fcf44d1fe8",
            two(calls::matrix(rule, &screen, 81).unwrap()),
        );
    }
    let given: Vec<f64> = (0..81).map(f64::from).collect();
    let moved = calls::move_node(1, &screen, &given, 0, [0.1, 0.2, 0.3]).unwrap();
    let named = |k: usize| [0, 1, 3].contains(&(k / 9)) || [0, 1, 3].contains(&(k % 9));
    let kept = (0..81).filter(|&k| !named(k) && moved.matrix[k] == given[k]).count();
    sheet.line("given 0 to 80, cells not named that a move keeps", "36", kept);
    let energies = [[0.0, 1.0, 0.0, 0.0], [0.0, 0.0, 1.0, 0.0]].map(|cells| calls::energy1(&cells, &[1.0, 1.0]));
    sheet.line(
        "energies of 0 1 0 0 and 0 0 1 0, values 1 1",
        "[Ok(0.5), Ok(0.5)]",
        format!("{energies:?}"),
    );
    small_matrices(sheet);
}

/// The matrices that are due of small meshes beside the original's own, and moves from them.
fn small_matrices(sheet: &mut Sheet) {
    let (mut apart, mut above, mut below, mut moves) = (0, 0, 0, vec![]);
    for (mesh, rule) in meshes(1, MESHES).zip((1..=5).cycle()) {
        let n = mesh.nodes();
        let Ok(original) = calls::original_matrix(rule, &mesh, n * n) else {
            continue;
        };
        let due = calls::matrix(rule, &mesh, n * n).unwrap();
        for (a, b) in (0..n * n).map(|k| (k / n, k % n)) {
            let differs = due[a * n + b].to_bits() != original[a * n + b].to_bits();
            above += (a <= b && differs) as usize;
            below += (a > b && differs) as usize;
            apart += (due[a * n + b].to_bits() != due[b * n + a].to_bits()) as usize;
        }
        moves.extend((0..n).filter_map(|node| ends_fresh(rule, &mesh, &due, node)));
    }
    let otherwise = moves.iter().filter(|fresh| !**fresh).count();
    println!(
        "{below} cells below the diagonal are not the original's, {} moves",
        moves.len()
    );
    sheet.line("below the diagonal some are not the original's", "true", below > 0);
    sheet.line("on and above it cells that are not", "0", above);
    sheet.line("cells that are not their transposed ones", "0", apart);
    sheet.line("moves that do not end in the moved mesh's", "0", otherwise);
}

/// Whether a small move of a node, from the matrix due, ends in the one due of the moved mesh; none if it is refused.
fn ends_fresh(rule: u64, mesh: &Mesh, due: &[f64], node: usize) -> Option<bool> {
    let place = mesh.node(node).map(|x| x + 0.125);
    let moved = calls::move_node(rule, mesh, due, node, place).ok()?;
    let fresh = calls::matrix(rule, &moved.mesh, due.len()).ok()?;
    let mut pairs = moved.matrix.into_iter().zip(fresh);
    Some(pairs.all(|(a, b)| canonical(a) == canonical(b)))
}

/// The command under which the oracle starts itself to have its standard error read.
pub const WARN: &str = "warn";
const MESHES: usize = 4000;

fn meshes(seed: u64, count: usize) -> impl Iterator<Item = Mesh> {
    let mut r = Rng(seed);
    (0..count).map(move |_| generate::small_mesh(&mut r))
}

/// Has the original test each mesh, which writes its warning; a line `mesh` goes before.
pub fn warn(seed: u64, count: usize) {
    for mesh in meshes(seed, count) {
        eprintln!("mesh");
        let _ = calls::view(&mesh);
    }
}

/// The count of poor panels against the number in the original's warning.
fn warnings(sheet: &mut Sheet) {
    println!("\nPoor panels");
    let seed = 1;
    let program = std::env::current_exe().expect("the path of this program");
    let child = std::process::Command::new(program)
        .args([WARN, &seed.to_string(), &MESHES.to_string()])
        .output()
        .expect("the oracle starts itself");
    let text = String::from_utf8(child.stderr).expect("text");
    let mut warned: Vec<u64> = vec![];
    for line in text.lines() {
        let number = line.strip_prefix("warning: ").and_then(|rest| rest.split(' ').next());
        match number.map(|n| n.parse::<u64>()) {
            None if line == "mesh" => warned.push(0),
            Some(Ok(n)) => *warned.last_mut().expect("a mesh before") += n,
            _ => panic!("{line}"),
        }
    }
    let counts: Vec<u64> = meshes(seed, MESHES)
        .map(|mesh| calls::mesh_test(&mesh).unwrap_or(0))
        .collect();
    let accepted = meshes(seed, MESHES)
        .filter(|mesh| calls::mesh_refusal(mesh) == 0)
        .count();
    println!(
        "{accepted} of {MESHES} meshes accepted, {} with poor panels, {} poor panels in all",
        counts.iter().filter(|&&n| n > 0).count(),
        counts.iter().sum::<u64>()
    );
    let differ = counts.iter().zip(&warned).filter(|(a, b)| a != b).count();
    sheet.line("meshes seen by the original", &MESHES.to_string(), warned.len());
    sheet.line("meshes whose count is not the warning's", "0", differ);
}

fn constants() {
    println!("\nConstants and tables");
    println!("MU_0 {}  MU0_OVER_4PI {}", hex(cfsem::MU_0), hex(cfsem::MU0_OVER_4PI));
    println!(
        "4*sqrt(3) {}  1e-14 {}  1e-3 {}  1e-12 {}  64*EPSILON {}",
        hex(4.0 * 3f64.sqrt()),
        hex(1e-14),
        hex(1e-3),
        hex(1e-12),
        hex(64.0 * f64::EPSILON)
    );
    for rule in 1..=5 {
        println!("rule {rule}: weight, u, v, (1 - u) - v");
        for [weight, u, v] in inner::table(inner::kind(rule).unwrap()) {
            println!("  {} {} {} {}", hex(*weight), hex(*u), hex(*v), hex(1.0 - u - v));
        }
    }
    let reciprocals: Vec<String> = (1..=45)
        .step_by(2)
        .map(|k| format!("1/{k} {}", hex(1.0 / k as f64)))
        .collect();
    println!("{}", reciprocals.join("  "));
    println!(
        "coupling of the unit panel with itself {}",
        hex(calls::coupling(1, UNIT, UNIT).unwrap())
    );
}

fn standins_against_std() {
    let relative = |a: f64, b: f64| {
        if a == b || a.is_nan() && b.is_nan() {
            0.0
        } else {
            ((a - b) / b).abs() * 2f64.powi(53)
        }
    };
    let mut r = Rng(5);
    let (mut ln, mut asinh, mut atan2) = (0.0f64, 0.0f64, 0.0f64);
    for _ in 0..1_000_000 {
        let any = f64::from_bits(r.word() >> 1);
        if any.is_finite() {
            ln = ln.max(relative(standin::ln(any), any.ln()));
        }
        let x = r.signed() * 2f64.powi(r.range(-40, 40) as i32);
        let y = r.signed() * 2f64.powi(r.range(-40, 40) as i32);
        asinh = asinh.max(relative(standin::asinh(x), x.asinh()));
        atan2 = atan2.max(relative(standin::atan2(y, x), y.atan2(x)));
    }
    println!(
        "\nLargest relative difference of the stand-ins from std in units of 2^-53, a million points each: ln {ln:.1}, asinh {asinh:.1}, atan2 {atan2:.1}"
    );
}
