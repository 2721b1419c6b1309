//! The stored sample of the original's answers (oracle/sample), case by case in bits, on a thread with 2 MB of stack. The last
//! case of each file is wrong on purpose, by one bit of one result: exactly these must differ.
use std::collections::BTreeMap;
use std::path::Path;

/// A file's differing cases; those that are answered and those that are not are counted by kind.
fn differing(bytes: &[u8], answered: &mut BTreeMap<&str, usize>, rest: &mut BTreeMap<&str, usize>) -> Vec<Differing> {
    let (mut read, mut differ) = (0, vec![]);
    cases::file::read(bytes, |kind, input, due| {
        let name = cases::name(kind);
        match replay::call(name) {
            None => *rest.entry(name).or_default() += 1,
            Some(call) => {
                *answered.entry(name).or_default() += 1;
                let got = replay::answer(call, input);
                if got != due {
                    let bits =
                        (got.len() == due.len()).then(|| got.iter().zip(due).map(|(a, b)| (a ^ b).count_ones()).sum());
                    differ.push(Differing {
                        from_end: read,
                        name,
                        bits,
                    });
                }
            }
        }
        read += 1;
    });
    for case in &mut differ {
        case.from_end = read - case.from_end;
    }
    differ
}

/// A case that differs: its place, 1 for the file's last, its kind, and in how many bits if there are as many results as due.
#[derive(Debug, PartialEq)]
struct Differing {
    from_end: usize,
    name: &'static str,
    bits: Option<u32>,
}

fn replay() {
    let (mut counts, mut rest) = (BTreeMap::new(), BTreeMap::new());
    for (file, wrong) in FILES {
        let differ = differing(&sample(file), &mut counts, &mut rest);
        let due = Differing {
            from_end: 1,
            name: wrong,
            bits: Some(1),
        };
        assert_eq!(differ, [due], "the cases of {file}.bin that differ");
    }
    println!(
        "{} kinds, {} cases, {} differ, which are wrong on purpose",
        counts.len(),
        counts.values().sum::<usize>(),
        FILES.len()
    );
    let left: Vec<&str> = rest.into_keys().collect();
    assert_eq!(left, NOT_CALLS, "kinds that are not answered");
    assert_eq!(counts.len(), replay::CALLS.len(), "every call is in the sample");
}

/// The files of the stored sample, one for each program that replays it in Rattle and one with what is too large for these,
/// and the kind of each file's wrong case.
const FILES: [(&str, &str); 5] = [
    ("calls", "gradient"),
    ("meshes", "densities"),
    ("matrices", "matrix"),
    ("returns", "return_shape"),
    ("large", "move"),
];

/// A file of the stored sample: the oracle's, or what the program reads.
fn sample(file: &str) -> Vec<u8> {
    let repository = Path::new(env!("CARGO_MANIFEST_DIR")).join("../..");
    let places = [
        format!("oracle/sample/{file}.bin"),
        format!("crates/oracle_{file}/stdin"),
    ];
    let found = places
        .iter()
        .find_map(|place| std::fs::read(repository.join(place)).ok());
    found.unwrap_or_else(|| panic!("the stored sample: {file}"))
}

/// What the crate has no call for: the program `density`, and two distances that are private in the original.
const NOT_CALLS: [&str; 3] = ["density_program", "point_distance", "segment_distance"];

#[test]
fn every_stored_answer_is_given_again() {
    std::thread::Builder::new()
        .stack_size(2 << 20)
        .spawn(replay)
        .unwrap()
        .join()
        .unwrap();
}
