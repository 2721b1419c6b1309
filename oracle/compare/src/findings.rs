//! The surprising answers of docs/DIFFERENCES.md, asked of both: what the original answers and what ours does.
use oracle::calls::{self, Mesh};
use oracle::eval::{self, Out};
use oracle::generate::three_by_three;

type Vector = [f64; 3];

const UNIT: [Vector; 3] = [[0.0, 0.0, 0.0], [1.0, 0.0, 0.0], [0.0, 1.0, 0.0]];

/// A question with the answers to it.
struct Case {
    finding: u32,
    what: String,
    kind: &'static str,
    original: Vec<u64>,
    /// What ours is to answer: as the original does, but for the cells below a matrix's diagonal.
    due: Vec<u64>,
    /// None where ours has no call.
    ours: Option<Vec<u64>>,
}

/// Ours to a case's input.
fn ours(kind: &str, input: &Out) -> Option<Vec<u64>> {
    replay::call(kind).map(|call| replay::answer(call, &input.0))
}

fn case(finding: u32, what: &str, kind: &'static str, input: Out) -> Case {
    let original = eval::eval(eval::kind(kind).expect(kind), &input.0);
    Case {
        finding,
        what: what.into(),
        kind,
        due: original.clone(),
        original,
        ours: ours(kind, &input),
    }
}

fn numbers(xs: &[f64]) -> Out {
    Out::default().bits(xs)
}

fn mesh(nodes: &[Vector], panel: [usize; 3]) -> Out {
    let mut mesh = Mesh::default();
    for node in nodes {
        mesh.add_node(*node);
    }
    mesh.add_panel(panel);
    Out::default().mesh(&mesh)
}

fn triangle(t: [Vector; 3]) -> Out {
    Out::default().triangle(t)
}

fn degenerate() -> Vec<Case> {
    let (a, b) = ([0.0, 0.0, 0.0], [100.1, 100.3, 0.0]);
    let wide = [[-1.7e308, 0.0, 0.0], [1.7e308, 0.0, 0.0], [0.0, 1.0, 0.0]];
    let large = [[0.0, 0.0, 0.0], [1e200, 0.0, 0.0], [0.0, 1e200, 0.0]];
    vec![
        case(
            1,
            "nodes a (0,0,0), b (100.1,100.3,0): panel a b b",
            "area",
            triangle([a, b, b]),
        ),
        case(
            1,
            "the same as a mesh, panel 0 1 1",
            "mesh_test",
            mesh(&[a, b], [0, 1, 1]),
        ),
        case(1, "panel a b a", "area", triangle([a, b, a])),
        case(
            1,
            "the same as a mesh, panel 0 1 0",
            "mesh_test",
            mesh(&[a, b], [0, 1, 0]),
        ),
        case(1, "panel a a b", "area", triangle([a, a, b])),
        case(
            1,
            "the same as a mesh, panel 0 0 1",
            "mesh_test",
            mesh(&[a, b], [0, 0, 1]),
        ),
        case(10, "(-1.7e308,0,0), (1.7e308,0,0), (0,1,0)", "area", triangle(wide)),
        case(
            10,
            "the same as a mesh, panel 0 1 2",
            "mesh_test",
            mesh(&wide, [0, 1, 2]),
        ),
        case(10, "the same", "quality", triangle(wide)),
        case(10, "(0,0,0), (1e200,0,0), (0,1e200,0)", "area", triangle(large)),
        case(
            10,
            "the same as a mesh, panel 0 1 2",
            "mesh_test",
            mesh(&large, [0, 1, 2]),
        ),
        case(10, "the same", "quality", triangle(large)),
    ]
}

fn panels() -> Vec<Case> {
    let at = |point: Vector| triangle(UNIT).bits(&point);
    let small = [[0.0, 0.0, 0.0], [1e-13, 0.0, 0.0], [0.0, 1e-13, 0.0]];
    let (nan, far) = (f64::NAN, -1e155);
    vec![
        case(3, "unit panel, (-1e155,-1e155,0)", "contact", at([far, far, 0.0])),
        case(
            3,
            "unit panel, (-9.5e153,-9.5e153,0)",
            "contact",
            at([-9.5e153, -9.5e153, 0.0]),
        ),
        case(
            3,
            "unit panel, (-9.4e153,-9.4e153,0)",
            "contact",
            at([-9.4e153, -9.4e153, 0.0]),
        ),
        case(4, "unit panel, (0.25,1e-170,0)", "potential", at([0.25, 1e-170, 0.0])),
        case(4, "unit panel, (0.25,1e-150,0)", "potential", at([0.25, 1e-150, 0.0])),
        case(4, "unit panel, (0.25,0,0)", "potential", at([0.25, 0.0, 0.0])),
        case(5, "unit panel, corner 0", "gradient", at([0.0; 3])),
        case(5, "unit panel, (0.25,0,0)", "gradient", at([0.25, 0.0, 0.0])),
        case(
            6,
            "(0,0,0), (1,0,0), (5,NaN,0): edges 1 and 2 are NaN",
            "bisect",
            triangle([UNIT[0], UNIT[1], [5.0, nan, 0.0]]),
        ),
        case(
            6,
            "(NaN,0,0), (1,0,0), (0,7,0): edges 0 and 2 are NaN",
            "bisect",
            triangle([[nan, 0.0, 0.0], UNIT[1], [0.0, 7.0, 0.0]]),
        ),
        case(
            6,
            "(0,0,0), (NaN,0,0), (0,7,0): edges 0 and 1 are NaN",
            "bisect",
            triangle([UNIT[0], [nan, 0.0, 0.0], [0.0, 7.0, 0.0]]),
        ),
        case(
            6,
            "(0,0,0), (inf,0,0), (inf,1,0): edge 1 alone is NaN, the others are infinite",
            "bisect",
            triangle([UNIT[0], [f64::INFINITY, 0.0, 0.0], [f64::INFINITY, 1.0, 0.0]]),
        ),
        case(
            8,
            "source (0,0,0), (1e-13,0,0), (0,1e-13,0), target unit panel",
            "identical",
            triangle(small).triangle(UNIT),
        ),
        case(
            8,
            "source and target exchanged",
            "identical",
            triangle(UNIT).triangle(small),
        ),
    ]
}

fn arithmetic() -> Vec<Case> {
    let (nan, least) = (f64::NAN, f64::from_bits(1));
    vec![
        case(9, "5e-324", "asinh", numbers(&[least])),
        case(9, "-5e-324", "asinh", numbers(&[-least])),
        case(11, "-0, 0", "min", numbers(&[-0.0, 0.0])),
        case(11, "0, -0", "min", numbers(&[0.0, -0.0])),
        case(11, "-0, 0", "max", numbers(&[-0.0, 0.0])),
        case(11, "0, -0", "max", numbers(&[0.0, -0.0])),
        case(11, "NaN, 1", "min", numbers(&[nan, 1.0])),
        case(11, "1, NaN", "min", numbers(&[1.0, nan])),
        case(11, "NaN, 1", "max", numbers(&[nan, 1.0])),
        case(11, "1, NaN", "max", numbers(&[1.0, nan])),
        case(11, "-0, 0, 1", "clamp", numbers(&[-0.0, 0.0, 1.0])),
        case(11, "NaN, 0, 1", "clamp", numbers(&[nan, 0.0, 1.0])),
    ]
}

/// Two cells of a matrix that part in the original; ours has the first at both.
fn shared_edge() -> Vec<Case> {
    let screen = three_by_three();
    let n = screen.nodes();
    let two = |cells: &[u64]| [(1, 4), (4, 1)].map(|(a, b)| cells[a * n + b]).to_vec();
    let of_rule = |rule: u64| {
        let cells = calls::original_matrix(rule, &screen, n * n).expect("an accepted mesh");
        let original = two(&Out::default().results(&cells).0);
        let input = Out::default().word(rule).mesh(&screen).size(n * n);
        Case {
            finding: 2,
            what: format!("3 by 3 screen, rule {rule}: cell (1,4), and (4,1), which is its copy in ours"),
            kind: "matrix",
            due: vec![original[0]; 2],
            original,
            // the refusal's number stands before the cells
            ours: ours("matrix", &input).map(|words| two(&words[1..])),
        }
    };
    (1..=5).map(of_rule).collect()
}

/// Numbers with their bits; whole numbers as they are.
fn shown(kind: &str, words: &[u64]) -> String {
    let one = |word: &u64| match kind {
        "mesh_test" | "contact" | "identical" => word.to_string(),
        _ => format!("{:?} ({word:016x})", f64::from_bits(*word)),
    };
    words.iter().map(one).collect::<Vec<_>>().join(", ")
}

/// Prints both answers to each; whether ours are those due wherever ours has the call, and it has some.
pub fn run() -> bool {
    let mut cases: Vec<Case> = [degenerate(), shared_edge(), panels(), arithmetic()]
        .into_iter()
        .flatten()
        .collect();
    cases.sort_by_key(|c| c.finding);
    let (mut asked, mut differ) = (0, 0);
    for case in &cases {
        let (finding, kind) = (case.finding, case.kind);
        println!(
            "{finding:2} {kind}: {}\n   original {}",
            case.what,
            shown(kind, &case.original)
        );
        match &case.ours {
            Some(got) => {
                println!("   ours     {}", shown(kind, got));
                asked += 1;
                differ += (*got != case.due) as usize;
            }
            None => println!("   ours     (no call of ours)"),
        }
    }
    println!(
        "findings: {} cases, {asked} asked of ours, {differ} differ",
        cases.len()
    );
    asked > 0 && differ == 0
}
