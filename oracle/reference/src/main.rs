//! Makes cases with the original's answers, and answers stored cases again. `oracle` alone prints the commands.
use cfsem::physics::boundary_element as be;
use oracle::eval::{self, eval};
use oracle::{calls, cases, generate, selfcheck, sorts};
use std::collections::BTreeMap;
use std::io::{BufWriter, Read, Write};
use std::process::ExitCode;

const USAGE: &str =
    "oracle selfcheck                           document 01's bench sheet, findings, named shapes, constants, tables, poor panels
oracle generate SEED FILE [SCALE] [KIND]   cases by seed (FORMAT.md)
oracle stored FOLDER                       the files of the stored sample (sample/README.md)
oracle check FILE [COUNT]                  answers the file's cases again and compares; so many must differ, none if not given
oracle statistics FILE                     refusals and sorts of results by kind
oracle show FILE [KIND] [COUNT]            cases in hexadecimal
oracle density < FILE                      the program `density`";

fn main() -> ExitCode {
    let words: Vec<String> = std::env::args().skip(1).collect();
    let words: Vec<&str> = words.iter().map(String::as_str).collect();
    let good = match words[..] {
        ["selfcheck"] => selfcheck::run(),
        [selfcheck::WARN, seed, count] => {
            selfcheck::warn(seed.parse().unwrap(), count.parse().unwrap());
            true
        }
        ["generate", seed, file, ref rest @ ..] => {
            let scale = rest.first().map_or(1.0, |s| s.parse().expect("SCALE"));
            let only = rest.get(1).map(|name| named(name));
            let seed = seed.parse().expect("SEED");
            write_cases(file, |each| generate::all(seed, scale, only, each));
            true
        }
        ["stored", folder] => {
            for (name, cases) in generate::stored::files() {
                println!("{name}.bin");
                write_cases(&format!("{folder}/{name}.bin"), |each| {
                    cases
                        .iter()
                        .for_each(|(kind, input, results)| each(*kind, input, results));
                });
            }
            true
        }
        ["check", file] => check(file, 0),
        ["check", file, count] => check(file, count.parse().expect("COUNT")),
        ["statistics", file] => {
            statistics(file);
            true
        }
        ["show", file, ref rest @ ..] => {
            let only = rest.first().map(|name| named(name));
            show(file, only, rest.get(1).map_or(10, |n| n.parse().expect("COUNT")));
            true
        }
        ["density"] => {
            let mut bytes = vec![];
            std::io::stdin().read_to_end(&mut bytes).unwrap();
            let written = calls::density_program(&bytes);
            std::io::stdout().write_all(&written).unwrap();
            true
        }
        _ => {
            println!("{USAGE}");
            false
        }
    };
    if good { ExitCode::SUCCESS } else { ExitCode::FAILURE }
}

fn named(name: &str) -> u32 {
    eval::kind(name).unwrap_or_else(|| panic!("no such kind: {name}"))
}

fn each_case(file: &str, each: impl FnMut(u32, &[u64], &[u64])) {
    cases::read(&std::fs::read(file).expect(file), each);
}

/// Writes the cases that `make` hands out, and prints how many there are of each kind.
fn write_cases(file: &str, make: impl FnOnce(&mut dyn FnMut(u32, &[u64], &[u64]))) {
    let mut out = BufWriter::new(std::fs::File::create(file).expect(file));
    let mut counts = BTreeMap::new();
    cases::write_mark(&mut out).unwrap();
    make(&mut |kind, input, results| {
        let (count, words) = counts.entry(kind).or_insert((0, 0));
        *count += 1;
        *words += 2 + input.len() + results.len();
        cases::write(&mut out, kind, input, results).unwrap();
    });
    for (kind, (count, words)) in counts {
        println!(
            "{kind:3} {:18} {count:6} cases {:8} kB",
            eval::name(kind),
            words * 8 / 1024
        );
    }
}

/// Answers the cases of a file again; whether there are any and so many differ.
fn check(file: &str, expected: usize) -> bool {
    let (mut count, mut differ) = (0, BTreeMap::new());
    each_case(file, |kind, input, results| {
        count += 1;
        if eval(kind, input) != results {
            *differ.entry(eval::name(kind)).or_insert(0) += 1;
        }
    });
    for (name, n) in &differ {
        println!("{name:18} {n:6} differ");
    }
    let all = differ.values().sum::<usize>();
    println!("{count} cases, {all} differ");
    count > 0 && all == expected
}

fn statistics(file: &str) {
    let mut sorts: BTreeMap<u32, BTreeMap<String, usize>> = BTreeMap::new();
    each_case(file, |kind, input, results| {
        let name = eval::name(kind);
        let counts = sorts.entry(kind).or_default();
        *counts.entry(sort(name, results)).or_default() += 1;
        if let Some(what) = matrix_given(name, input, results[0]) {
            *counts.entry(what.to_string()).or_default() += 1;
        }
        for what in sorts::Asked::read(name, input)
            .iter()
            .flat_map(|asked| sorts::sorts(asked, results[0]))
        {
            *counts.entry(what).or_default() += 1;
        }
        for what in accepted_mesh(name, input, results[0]).iter().flat_map(peculiar) {
            *counts.entry(what.to_string()).or_default() += 1;
        }
    });
    for (kind, counts) in sorts {
        println!("{:18} {counts:?}", eval::name(kind));
    }
}

/// The sort of matrix that an accepted move, return or energy is given.
fn matrix_given(name: &str, input: &[u64], number: u64) -> Option<&'static str> {
    let i = &mut eval::In::new(input);
    let bits = |cells: &[f64]| cells.iter().map(|x| x.to_bits()).collect::<Vec<u64>>();
    let symmetric = |cells: &[f64], n: usize| {
        let mut mirror = cells.to_vec();
        calls::mirror(&mut mirror, n);
        bits(&mirror) == bits(cells)
    };
    match name {
        "move" | "return_shape" if number == 0 => {
            let (rule, mesh, cells) = (i.word(), i.mesh(), i.numbers());
            let own = calls::original_matrix(rule, &mesh, cells.len()).expect("an accepted mesh");
            let due = calls::matrix(rule, &mesh, cells.len()).expect("an accepted mesh");
            Some(match symmetric(&cells, mesh.nodes()) {
                true if bits(&cells) == bits(&due) => "matrix: fresh",
                true => "matrix: any, symmetric",
                false if bits(&cells) == bits(&own) => "matrix: the original's, not symmetric",
                false => "matrix: any, not symmetric",
            })
        }
        "energy2" | "energy1" if number == 0 => {
            let (cells, values) = (i.numbers(), i.numbers());
            Some(match symmetric(&cells, values.len()) {
                true => "matrix: symmetric",
                false => "matrix: not symmetric",
            })
        }
        _ => None,
    }
}

/// The mesh of a case that has one and is not refused.
fn accepted_mesh(name: &str, input: &[u64], number: u64) -> Option<calls::Mesh> {
    let i = &mut eval::In::new(input);
    match name {
        _ if number != 0 => None,
        "mesh_test" | "densities" | "write_file" | "save_shape" | "drop_shape" => Some(i.mesh()),
        "quadrature" | "matrix" | "move" | "return_shape" => {
            i.word();
            Some(i.mesh())
        }
        "read_file" => calls::read_file(&i.bytes(), i.lengths()).ok(),
        _ => None,
    }
}

/// What is out of the ordinary in an accepted mesh.
fn peculiar(mesh: &calls::Mesh) -> Vec<&'static str> {
    let triangles = || (0..mesh.panels()).map(|i| mesh.triangle(i));
    let indices = || (0..mesh.panels()).map(|i| mesh.indices(i));
    let area = |t: [[f64; 3]; 3]| be::calc_tri_area(t[0], t[1], t[2]);
    let sorts = [
        ("no node", mesh.nodes() == 0),
        ("no panel", mesh.panels() == 0),
        ("NaN area", triangles().any(|t| area(t).is_nan())),
        ("infinite area", triangles().any(|t| area(t).is_infinite())),
        (
            "area within 1e-28 of the limit",
            triangles().any(|t| (area(t) - 1e-14).abs() < 1e-28),
        ),
        ("poor panel", calls::poor_panels(mesh) > 0),
        (
            "index twice in a panel",
            indices().any(|[a, b, c]| a == b || b == c || c == a),
        ),
        ("index above 255", indices().flatten().any(|k| k > 255)),
        (
            "node without panel",
            (0..mesh.nodes()).any(|k| indices().all(|panel| !panel.contains(&k))),
        ),
        ("4096 nodes", mesh.nodes() == calls::MAX_NODES),
        ("8192 panels", mesh.panels() == calls::MAX_PANELS),
    ];
    let had = sorts.into_iter().chain(peculiar_coordinates(mesh));
    had.filter(|(_, has)| *has).map(|(what, _)| what).collect()
}

/// The same of its coordinates: each sort, and whether there is one.
fn peculiar_coordinates(mesh: &calls::Mesh) -> [(&'static str, bool); 5] {
    let some = |sort: fn(f64) -> bool| [&mesh.x, &mesh.y, &mesh.z].into_iter().flatten().any(|&x| sort(x));
    [
        ("NaN coordinate", some(f64::is_nan)),
        (
            "NaN coordinate, not 7ff8000000000000",
            some(|x| x.to_bits() != oracle::canonical(x)),
        ),
        ("infinite coordinate", some(f64::is_infinite)),
        ("subnormal coordinate", some(f64::is_subnormal)),
        ("-0 coordinate", some(|x| x.to_bits() == 1 << 63)),
    ]
}

/// The refusal's number, the printed refusal, or the sort of number that the first result is.
fn sort(name: &str, results: &[u64]) -> String {
    match name {
        "coupling" | "block" | "entry" | "mesh_test" | "quadrature" | "densities" | "matrix" | "energy2"
        | "energy1" | "flux" | "interaction" | "move" | "row_matrix" | "row_map" | "read_file" | "write_file"
        | "display" | "coupling_regular" | "contact" | "identical" | "is_far" | "save_shape" | "drop_shape"
        | "return_shape" => results[0].to_string(),
        "steps" => format!("{} class {}", results[0], results[1]),
        "density_program" => {
            let mut text = [
                results[1].to_le_bytes(),
                *results.get(2).map(|w| w.to_le_bytes()).get_or_insert([0; 8]),
            ]
            .concat();
            text.truncate(results[0] as usize);
            let line = String::from_utf8_lossy(&text).lines().next().unwrap_or("").to_string();
            if line.starts_with('r') { line } else { "printed".into() }
        }
        _ => {
            let x = f64::from_bits(results[0]);
            format!("{:?}", x.classify())
        }
    }
}

fn show(file: &str, only: Option<u32>, mut left: usize) {
    let hex = |words: &[u64]| words.iter().map(|w| format!("{w:016x}")).collect::<Vec<_>>().join(" ");
    each_case(file, |kind, input, results| {
        if left > 0 && only.is_none_or(|k| k == kind) {
            left -= 1;
            println!("{} {} -> {}", eval::name(kind), hex(input), hex(results));
        }
    });
}
