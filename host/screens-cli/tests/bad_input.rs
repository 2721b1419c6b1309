//! Bad input gives a clear message and loses nothing: no file of the folder is changed, and none is left over.
mod common;
use common::{Folder, npy, npy_of, npy_whole, place, square_file, square_places, store};
use std::ffi::OsStr;
use std::fs::{File, Permissions};
use std::os::unix::ffi::OsStrExt;
use std::os::unix::fs::PermissionsExt;

const GIGABYTE: u64 = 1 << 30;

/// Runs the tool; it must end with a status and a message that has some words, and leave the folder as it was.
fn refused(folder: &Folder, status: i32, words: &[&str], said: &str) {
    let before = folder.contents();
    let ran = folder.run(words);
    assert_eq!(ran.status, Some(status), "{words:?}: {ran:?}");
    assert!(ran.err.contains(said), "{words:?}: {}", ran.err);
    assert_eq!(ran.out, "", "{words:?}");
    assert!(folder.contents() == before, "{words:?} changed the folder");
}

/// The same for every command that reads a panel file by that name.
fn refused_by_all(folder: &Folder, file: &str, status: i32, said: &str) {
    let move_words = "move FILE square.npy --node 0 --to 1 1 1 --rule 3 -o square.npy --mesh-out square.pnl";
    for line in [
        "check FILE",
        "matrix FILE --rule 3 -o square.npy",
        "energy square.npy --ring FILE",
        move_words,
        "density FILE --values values.txt",
        "plot FILE -o new.svg",
        "write FILE -o square.pnl",
        "save FILE square.shapes --name as-cast",
        "save FILE new.shapes --name as-cast",
        "drop FILE square.shapes --name as-cast",
        "return FILE square.shapes square.npy --name raised --rule 3 -o square.npy --mesh-out square.pnl",
    ] {
        refused_with(folder, "FILE", file, line, status, said);
    }
}

/// The same for a line with a name in the place of a word.
fn refused_with(folder: &Folder, word: &str, name: &str, line: &str, status: i32, said: &str) {
    let words: Vec<&str> = line
        .split(' ')
        .map(|given| if given == word { name } else { given })
        .collect();
    refused(folder, status, &words, said);
}

/// The same for every command that reads a store by that name together with a panel file.
fn store_refused(folder: &Folder, file: &str, status: i32, said: &str) {
    for line in [
        "save square.pnl STORE --name as-cast",
        "drop square.pnl STORE --name as-cast",
        "return square.pnl STORE square.npy --name as-cast --rule 3 -o new.npy --mesh-out new.pnl",
    ] {
        refused_with(folder, "STORE", file, line, status, said);
    }
}

fn shapes_refused(folder: &Folder, file: &str, said: &str) {
    refused(folder, 2, &["shapes", file], said);
}

/// The same for nodes and panels of two files.
fn rows_refused(folder: &Folder, nodes: &str, panels: &str, status: i32, said: &str) {
    refused(folder, status, &["write", nodes, panels, "-o", "square.pnl"], said);
}

/// The same for every command that reads a matrix by that name.
fn matrix_refused(folder: &Folder, file: &str, status: i32, said: &str) {
    refused(folder, status, &["row", file, "0"], said);
    refused(folder, status, &["energy", file, "--values", "values.txt"], said);
    let words = [
        "move",
        "square.pnl",
        file,
        "--node",
        "0",
        "--to",
        "1",
        "1",
        "1",
        "--rule",
        "3",
        "-o",
        "square.npy",
    ];
    refused(folder, status, &words, said);
    let line = "return square.pnl square.shapes MATRIX --name raised --rule 3 -o square.npy --mesh-out square.pnl";
    refused_with(folder, "MATRIX", file, line, status, said);
}

/// A file of a gigabyte that begins with some bytes; it takes no room on the disk.
fn gigabyte(folder: &Folder, name: &str, start: &[u8]) {
    folder.put(name, start);
    File::options()
        .write(true)
        .open(folder.0.join(name))
        .unwrap()
        .set_len(GIGABYTE)
        .unwrap();
}

#[test]
fn missing_file() {
    let folder = Folder::new("missing");
    refused_by_all(&folder, "none.pnl", 2, "none.pnl: No such file");
    matrix_refused(&folder, "none.npy", 2, "none.npy: No such file");
    refused(
        &folder,
        2,
        &["energy", "square.npy", "--values", "none.txt"],
        "none.txt: No such file",
    );
    rows_refused(&folder, "none.txt", "panels.txt", 2, "none.txt: No such file");
    rows_refused(&folder, "nodes.txt", "none.npy", 2, "none.npy: No such file");
    rows_refused(&folder, ".", "panels.txt", 2, ".: Is a directory");
    refused_by_all(&folder, ".", 2, ".: Is a directory");
    matrix_refused(&folder, ".", 2, ".: Is a directory");
    refused(&folder, 2, &["check", ""], "No such file");
    // a store that is not there is made by `save` alone
    for line in [
        "shapes none.shapes",
        "drop square.pnl none.shapes --name a",
        "return square.pnl none.shapes square.npy --name a --rule 3 -o square.npy",
    ] {
        let words: Vec<&str> = line.split(' ').collect();
        refused(&folder, 2, &words, "none.shapes: No such file");
    }
    store_refused(&folder, ".", 2, ".: Is a directory");
    shapes_refused(&folder, ".", ".: Is a directory");
}

#[test]
fn store_of_another_length() {
    let folder = Folder::new("store-length");
    let file = folder.get("square.shapes");
    let longer = [&file[..], &file].concat();
    for length in [0, 7, 8, 71, 72, 73, 264, 648, 839, 841, 1031, 1032, 1680] {
        folder.put("cut.shapes", &longer[..length]);
        store_refused(
            &folder,
            "cut.shapes",
            1,
            "cut.shapes: not the 840 bytes of a store for 4 nodes: refused, number 6 (output)",
        );
        if [72, 264, 648, 1032].contains(&length) {
            assert_eq!(folder.run(&["shapes", "cut.shapes"]).status, Some(0), "{length}");
        } else {
            shapes_refused(
                &folder,
                "cut.shapes",
                "cut.shapes: not a store of shapes: its length is not 72 + 192n bytes",
            );
        }
    }
    // of other sorts
    for name in ["square.pnl", "square.npy", "values.txt", "plate.pnl"] {
        store_refused(&folder, name, 1, "number 6 (output)");
        shapes_refused(&folder, name, "not a store of shapes");
    }
    // a whole store of another screen, and one node more than the most
    for name in ["plate.pnl", "hole.pnl"] {
        let words = ["save", name, "square.shapes", "--name", "as-cast"];
        refused(&folder, 1, &words, "square.shapes: not the 5");
    }
    folder.put("large.shapes", &vec![0; 72 + 192 * 4096]);
    assert_eq!(folder.run(&["shapes", "large.shapes"]).status, Some(0));
    folder.put("large.shapes", &vec![0; 72 + 192 * 4097]);
    shapes_refused(&folder, "large.shapes", "for any n up to 4096 nodes");
    store_refused(&folder, "large.shapes", 1, "number 6 (output)");
}

#[test]
fn name_that_is_none() {
    let folder = Folder::new("name");
    for (name, said) in [
        ("", "--name: a name has one to eight bytes, and \"\" has 0"),
        (
            "as-welded",
            "--name: a name has one to eight bytes, and \"as-welded\" has 9",
        ),
        ("kühlkörp", "\"kühlkörp\" has 10"),
        ("--name", "--name takes 1 word"),
    ] {
        for line in [
            "save square.pnl square.shapes --name NAME",
            "save square.pnl new.shapes --name NAME",
            "drop square.pnl square.shapes --name NAME",
            "return square.pnl square.shapes square.npy --name NAME --rule 3 -o square.npy",
        ] {
            refused_with(&folder, "NAME", name, line, 2, said);
        }
    }
}

#[test]
fn store_without_the_name_or_a_place() {
    let folder = Folder::new("unknown");
    // a stale name, and names that are nearly held
    for name in ["stale", "as-cas", "as-cast ", "AS-CAST"] {
        let mut places = square_places();
        places[3] = place(0, b"stale\0\0\0", 0.0);
        folder.put("square.shapes", &store(&places));
        for line in [
            "drop square.pnl square.shapes --name NAME",
            "return square.pnl square.shapes square.npy --name NAME --rule 3 -o square.npy --mesh-out square.pnl",
        ] {
            refused_with(&folder, "NAME", name, line, 1, "refused, number 17 (unknown name)");
        }
    }
    let full: [_; 8] = std::array::from_fn(|k| place(1 + 36 * k as u8, &[b'a' + k as u8; 8], 0.0));
    folder.put("square.shapes", &store(&full));
    let words = ["save", "square.pnl", "square.shapes", "--name", "a"];
    refused(
        &folder,
        1,
        &words,
        "square.pnl: save as \"a\": refused, number 18 (no place)",
    );
}

#[test]
fn shape_that_is_no_mesh() {
    let folder = Folder::new("flat");
    let mut places = square_places();
    // node 3 on node 1
    places[2].2[1][3] = 0.0;
    places[2].2[2][3] = 0.0;
    folder.put("square.shapes", &store(&places));
    let line = "return square.pnl square.shapes square.npy --name raised --rule 3 -o square.npy --mesh-out square.pnl";
    let words: Vec<&str> = line.split(' ').collect();
    refused(
        &folder,
        1,
        &words,
        "square.pnl: return to \"raised\": refused, number 4 (zero area)",
    );
}

#[test]
fn store_that_cannot_be_written() {
    let folder = Folder::new("unwritable-store");
    std::fs::create_dir(folder.0.join("taken")).unwrap();
    for (out, status, said) in [
        ("none/new", 2, "none/new: No such file"),
        ("values.txt/new", 2, "values.txt/new: Not a directory"),
        ("taken", 2, "taken: Is a directory"),
        ("/dev/null", 1, "/dev/null: not the 840 bytes"),
        ("", 2, "not a name for a file"),
    ] {
        refused_with(&folder, "STORE", out, "save square.pnl STORE --name a", status, said);
    }
    let kept = folder.0.join("square.shapes");
    std::fs::set_permissions(&kept, Permissions::from_mode(0o444)).unwrap();
    for line in [
        "save square.pnl square.shapes --name a",
        "drop square.pnl square.shapes --name raised",
    ] {
        let words: Vec<&str> = line.split(' ').collect();
        refused(&folder, 2, &words, "square.shapes: the file is not to be written");
    }
}

#[test]
fn outputs_of_a_return_that_cannot_be_written() {
    let folder = Folder::new("unwritable-return");
    std::fs::create_dir(folder.0.join("taken")).unwrap();
    std::os::unix::fs::symlink("square.shapes", folder.0.join("link")).unwrap();
    let line = "return square.pnl square.shapes square.npy --name raised --rule 3";
    for (out, said) in [
        ("none/out", "none/out: No such file"),
        (
            "taken",
            "taken: there is something by that name that is no ordinary file",
        ),
        ("square.shapes", "and STORE name the same file"),
        ("taken/../square.shapes", "and STORE name the same file"),
        ("link", "and STORE name the same file"),
    ] {
        let matrix = format!("{line} -o OUT --mesh-out square.pnl");
        refused_with(&folder, "OUT", out, &matrix, 2, said);
        let mesh = format!("{line} -o square.npy --mesh-out OUT");
        refused_with(&folder, "OUT", out, &mesh, 2, said);
    }
    let both = format!("{line} -o square.npy --mesh-out OUT");
    refused_with(
        &folder,
        "OUT",
        "taken/../square.npy",
        &both,
        2,
        "-o and --mesh-out name the same file",
    );
}

#[test]
fn truncated_file() {
    let folder = Folder::new("truncated");
    let file = folder.get("square.pnl");
    for length in 0..file.len() {
        folder.put("cut.pnl", &file[..length]);
        let number = if length < 9 {
            "number 14 (mark)"
        } else {
            "number 15 (file length)"
        };
        refused(&folder, 1, &["check", "cut.pnl"], number);
    }
    refused_by_all(&folder, "cut.pnl", 1, "cut.pnl: refused, number 15 (file length)");
    folder.put("longer.pnl", &[&file[..], b"x"].concat());
    refused_by_all(&folder, "longer.pnl", 1, "number 15 (file length)");

    let matrix = folder.get("square.npy");
    for length in (0..matrix.len()).step_by(7) {
        folder.put("cut.npy", &matrix[..length]);
        refused(&folder, 2, &["row", "cut.npy", "0"], "cut.npy: ");
    }
    folder.put("cut.npy", &matrix[..matrix.len() - 1]);
    matrix_refused(
        &folder,
        "cut.npy",
        2,
        "cut.npy: it is cut short: its shape needs 128 bytes of numbers",
    );
    folder.put("longer.npy", &[&matrix[..], b"x"].concat());
    matrix_refused(&folder, "longer.npy", 2, "something stands behind its numbers");
}

#[test]
fn broken_file() {
    let folder = Folder::new("broken");
    folder.put("text.pnl", b"three panels, please");
    refused_by_all(&folder, "text.pnl", 1, "text.pnl: refused, number 14 (mark)");
    let mut file = folder.get("square.pnl");
    let last = file.len() - 2;
    file[last] = 9;
    folder.put("node.pnl", &file);
    refused_by_all(&folder, "node.pnl", 1, "number 3 (missing node)");
    file[last] = 3;
    folder.put("area.pnl", &file);
    refused_by_all(&folder, "area.pnl", 1, "number 4 (zero area)");
    file[6] = 0xff;
    folder.put("large.pnl", &file);
    refused_by_all(&folder, "large.pnl", 1, "number 11 (too large)");
}

#[test]
fn broken_matrix() {
    let folder = Folder::new("matrices");
    let bad = [
        (npy("(2, 3)", &[0.0; 6]), "not a square matrix: its shape is [2, 3]"),
        (npy("(4,)", &[0.0; 4]), "not a matrix: its shape is [4]"),
        (npy("()", &[0.0]), "not a matrix"),
        (npy("(18446744073709551615, 2)", &[]), "not a square matrix"),
        (npy("(18446744073709551616, 2)", &[]), "its shape cannot be read"),
        (
            b"\x93NUMPY\x04\x00\x00\x00".to_vec(),
            "its version is none of 1, 2 and 3",
        ),
        (b"\x93NUMPY\x02\x00\xff\xff\xff\xff".to_vec(), "its header is too long"),
        (b"1 2\n3 4\n".to_vec(), "it does not begin with the mark"),
    ];
    for (bytes, said) in bad {
        folder.put("bad.npy", &bytes);
        matrix_refused(&folder, "bad.npy", 2, said);
    }
    for (from, to, said) in [
        ("<f8", "<f4", "its numbers are <f4, not <f8"),
        ("<f8", ">f8", "its numbers are >f8, not <f8"),
        ("False", "True ", "it is in Fortran order"),
        ("'shape'", "'shope'", "its header has an entry shope"),
    ] {
        let text = String::from_utf8_lossy(&folder.get("square.npy")[10..128]).replacen(from, to, 1);
        folder.put(
            "bad.npy",
            &[&b"\x93NUMPY\x01\x00\x76\x00"[..], text.as_bytes(), &[0; 128]].concat(),
        );
        matrix_refused(&folder, "bad.npy", 2, said);
    }
}

#[test]
fn broken_rows_of_text() {
    let folder = Folder::new("text");
    for (text, said) in [
        (&b"0 0 0\n1 0\n"[..], "bad.txt: line 2: three numbers are due, not 2"),
        (b"0 0 0 0\n", "bad.txt: line 1: three numbers are due, not 4"),
        (b"0\n0\n0\n", "bad.txt: line 1: three numbers are due, not 1"),
        (b"0,0,0\n", "bad.txt: line 1: 0,0,0 is not a number"),
        (b"# x y z\n\n0 0 0\n0 0 zero", "bad.txt: line 4: zero is not a number"),
        (b"0 0 0x1p3", "bad.txt: line 1: 0x1p3 is not a number"),
        (b"0 0 \xff\n", "bad.txt: neither a NumPy file nor text"),
    ] {
        folder.put("bad.txt", text);
        rows_refused(&folder, "bad.txt", "panels.txt", 2, said);
    }
    for (text, said) in [
        (&b"0 1 2\n1 3\n"[..], "bad.txt: line 2: three numbers are due, not 2"),
        (b"0 1 2 3\n", "bad.txt: line 1: three numbers are due, not 4"),
        (b"0 1 2.0\n", "bad.txt: line 1: 2.0 is not a whole number"),
        (b"0 1 2\n-1 3 two\n", "bad.txt: line 2: two is not a whole number"),
        (b"0 1 nan\n", "bad.txt: line 1: nan is not a whole number"),
        (
            b"0 1 99999999999999999999x\n",
            "bad.txt: line 1: 99999999999999999999x is not",
        ),
    ] {
        folder.put("bad.txt", text);
        rows_refused(&folder, "nodes.txt", "bad.txt", 2, said);
    }
    // a panel file is neither
    rows_refused(
        &folder,
        "square.pnl",
        "panels.txt",
        2,
        "square.pnl: neither a NumPy file nor text",
    );
    refused_by_all(&folder, "nodes.txt", 1, "nodes.txt: refused, number 14 (mark)");
}

/// A NumPy file of four rows of zeros with any entries.
fn zeros(descr: &str, fortran: &str) -> Vec<u8> {
    npy_of(descr, fortran, "(4, 3)", [[0; 8]; 12].into_iter())
}

#[test]
fn broken_nodes_of_numpy() {
    let folder = Folder::new("nodes");
    for (bytes, said) in [
        (npy("(12,)", &[0.0; 12]), "not rows of three numbers: its shape is [12]"),
        (npy("(6, 2)", &[0.0; 12]), "its shape is [6, 2]"),
        (npy("(3, 4)", &[0.0; 12]), "its shape is [3, 4]"),
        (npy("(2, 2, 3)", &[0.0; 12]), "its shape is [2, 2, 3]"),
        (npy("()", &[0.0]), "its shape is []"),
        (npy("(5, 3)", &[0.0; 12]), "it is cut short: its shape needs 120 bytes"),
        (npy("(3, 3)", &[0.0; 12]), "something stands behind its numbers"),
        (
            zeros("<f4", "False"),
            "not a NumPy file of float64: its numbers are <f4, not <f8",
        ),
        (zeros(">f8", "False"), "its numbers are >f8, not <f8"),
        (zeros("<i8", "False"), "its numbers are <i8, not <f8"),
        (
            zeros("<f8", "True"),
            "not a NumPy file of float64: it is in Fortran order",
        ),
        (b"\x93NUMPY".to_vec(), "it does not begin with the mark"),
    ] {
        folder.put("bad.npy", &bytes);
        rows_refused(&folder, "bad.npy", "panels.txt", 2, said);
    }
}

#[test]
fn broken_panels_of_numpy() {
    let folder = Folder::new("panels");
    for (bytes, said) in [
        (
            npy_whole("(6,)", &[0; 6]),
            "not rows of three numbers: its shape is [6]",
        ),
        (
            npy_whole("(1, 3)", &[0, 1]),
            "it is cut short: its shape needs 24 bytes",
        ),
        (
            zeros("<f8", "False"),
            "not a NumPy file of int64: its numbers are <f8, not <i8",
        ),
        (zeros("<i4", "False"), "its numbers are <i4, not <i8"),
        (zeros(">i8", "False"), "its numbers are >i8, not <i8"),
        (zeros("<u8", "False"), "its numbers are <u8, not <i8"),
        (
            zeros("<i8", "True"),
            "not a NumPy file of int64: it is in Fortran order",
        ),
    ] {
        folder.put("bad.npy", &bytes);
        rows_refused(&folder, "nodes.txt", "bad.npy", 2, said);
    }
}

#[test]
fn rows_of_no_accepted_mesh() {
    let folder = Folder::new("mesh");
    let missing = "nodes.txt and bad: refused, number 3 (missing node)";
    for (bytes, said) in [
        (b"0 1 2\n1 3 4\n".to_vec(), missing),
        (b"0 1 2\n1 3 -1\n".to_vec(), missing),
        (b"0 1 18446744073709551615\n".to_vec(), missing),
        (b"0 1 18446744073709551618\n".to_vec(), missing),
        (b"-99999999999999999999 1 2\n".to_vec(), missing),
        (npy_whole("(2, 3)", &[0, 1, 2, 1, -3, 2]), missing),
        (npy_whole("(1, 3)", &[i64::MIN, 1, 2]), missing),
        (npy_whole("(1, 3)", &[0, 1, i64::MAX]), missing),
        // the second panel, before the first one's area
        (b"0 1 1\n1 3 -1\n".to_vec(), missing),
        (b"0 1 1\n".to_vec(), "nodes.txt and bad: refused, number 4 (zero area)"),
    ] {
        folder.put("bad", &bytes);
        rows_refused(&folder, "nodes.txt", "bad", 1, said);
    }
    folder.put("empty.txt", b"");
    rows_refused(&folder, "empty.txt", "panels.txt", 1, "number 3 (missing node)");
}

#[test]
fn too_many_rows() {
    let folder = Folder::new("many");
    let large = |file: &str| format!("screens: {file}: refused, number 11 (too large)");
    // each has an index that no mesh has, too: 11 comes before 3
    folder.put("missing.txt", b"-1 1 2\n");
    folder.put("many.txt", "0 0 0\n".repeat(4097).as_bytes());
    folder.put("many.npy", &npy("(4097, 3)", &[0.0; 3 * 4097]));
    folder.put("more.npy", &npy("(9000000000000000000, 3)", &[]));
    for file in ["many.txt", "many.npy", "more.npy"] {
        rows_refused(&folder, file, "missing.txt", 1, &large(file));
    }
    folder.put("many.txt", "-1 1 2\n".repeat(8193).as_bytes());
    folder.put("many.npy", &npy_whole("(8193, 3)", &[-1; 3 * 8193]));
    for file in ["many.txt", "many.npy"] {
        rows_refused(&folder, "nodes.txt", file, 1, &large(file));
    }
    folder.put("many.txt", "-1 1 2\n".repeat(8192).as_bytes());
    rows_refused(
        &folder,
        "nodes.txt",
        "many.txt",
        1,
        "nodes.txt and many.txt: refused, number 3",
    );
}

#[test]
fn text_that_is_too_long() {
    let folder = Folder::new("long");
    let remark = format!("0 0 0 # {}\n", "long ".repeat(300));
    folder.put("long.txt", remark.repeat(3000).as_bytes());
    rows_refused(&folder, "long.txt", "panels.txt", 2, "long.txt: too long for nodes");
    // more rows than are taken, in what is read of it
    folder.put("long.txt", "0 0 0\n".repeat(1_000_000).as_bytes());
    rows_refused(
        &folder,
        "long.txt",
        "panels.txt",
        1,
        "long.txt: refused, number 11 (too large)",
    );
    rows_refused(
        &folder,
        "nodes.txt",
        "long.txt",
        1,
        "long.txt: refused, number 11 (too large)",
    );
}

#[test]
fn wrong_rule() {
    let folder = Folder::new("rule");
    for (rule, status, said) in [
        ("0", 1, "number 12 (no such choice)"),
        ("6", 1, "number 12"),
        ("-3", 1, "number 12"),
        ("4294967299", 1, "number 12"),
        ("three", 2, "--rule: three is not a number of that sort"),
        ("", 2, "--rule"),
    ] {
        refused(
            &folder,
            status,
            &["matrix", "square.pnl", "--rule", rule, "-o", "square.npy"],
            said,
        );
        let words = [
            "move",
            "square.pnl",
            "square.npy",
            "--node",
            "0",
            "--to",
            "1",
            "1",
            "1",
            "--rule",
            rule,
            "-o",
            "square.npy",
        ];
        refused(&folder, status, &words, said);
        // before the store and the matrix are looked at
        let line = "return square.pnl values.txt values.txt --name raised --rule RULE -o square.npy";
        refused_with(&folder, "RULE", rule, line, status, said);
    }
}

#[test]
fn place_that_is_not_finite() {
    let folder = Folder::new("place");
    for (x, said) in [
        ("nan", "--to: nan is no place"),
        ("NaN", "--to: NaN is no place"),
        ("-inf", "--to: -inf is no place"),
        ("1e999", "--to: 1e999 is no place"),
        ("1,5", "--to: 1,5 is not a number of that sort"),
    ] {
        let words = [
            "move",
            "square.pnl",
            "square.npy",
            "--node",
            "0",
            "--to",
            "0",
            x,
            "0",
            "--rule",
            "3",
            "-o",
            "square.npy",
            "--mesh-out",
            "square.pnl",
        ];
        refused(&folder, 2, &words, said);
    }
}

#[test]
fn matrix_of_another_size() {
    let folder = Folder::new("size");
    let words = [
        "move",
        "plate.pnl",
        "square.npy",
        "--node",
        "0",
        "--to",
        "0",
        "0",
        "1",
        "--rule",
        "3",
        "-o",
        "square.npy",
        "--mesh-out",
        "plate.pnl",
    ];
    refused(
        &folder,
        1,
        &words,
        "plate.pnl: move of node 0: refused, number 6 (output)",
    );
    folder.put("nine.npy", &npy("(3, 3)", &[0.0; 9]));
    let line = "return square.pnl square.shapes nine.npy --name raised --rule 3 -o square.npy --mesh-out square.pnl";
    let words: Vec<&str> = line.split(' ').collect();
    refused(
        &folder,
        1,
        &words,
        "square.pnl: return to \"raised\": refused, number 6 (output)",
    );
    refused(
        &folder,
        1,
        &["energy", "square.npy", "--ring", "plate.pnl"],
        "square.npy: refused, number 7 (matrix)",
    );
    folder.put("three.txt", b"1 2 3");
    refused(
        &folder,
        1,
        &["energy", "square.npy", "--values", "three.txt"],
        "number 7 (matrix)",
    );
    refused(
        &folder,
        1,
        &["energy", "square.npy", "--values", "values.txt", "--with", "three.txt"],
        "number 5 (nodal values)",
    );
    refused(
        &folder,
        1,
        &["density", "square.pnl", "--values", "three.txt"],
        "number 5 (nodal values)",
    );
    let many = "1 ".repeat(4097);
    folder.put("many.txt", many.as_bytes());
    refused(
        &folder,
        1,
        &["energy", "square.npy", "--values", "many.txt"],
        "number 11 (too large)",
    );
    folder.put("word.txt", b"1\n2\nthree\n");
    refused(
        &folder,
        2,
        &["energy", "square.npy", "--values", "word.txt"],
        "word.txt: line 3: three is not a number",
    );
    folder.put("large.npy", &npy("(4097, 4097)", &[]));
    matrix_refused(&folder, "large.npy", 1, "large.npy: refused, number 11 (too large)");
}

#[test]
fn unwritable_folder() {
    let folder = Folder::new("unwritable");
    std::fs::create_dir(folder.0.join("taken")).unwrap();
    for (out, said) in [
        ("none/out", "none/out: No such file"),
        ("values.txt/out", "values.txt/out: Not a directory"),
        ("/proc/out", "/proc/out: "),
        (
            "taken",
            "taken: there is something by that name that is no ordinary file",
        ),
        (
            "/dev/null",
            "/dev/null: there is something by that name that is no ordinary file",
        ),
        ("..", ".."),
        ("", "not a name for a file"),
    ] {
        refused(&folder, 2, &["matrix", "square.pnl", "--rule", "3", "-o", out], said);
        refused(&folder, 2, &["plot", "square.pnl", "-o", out], said);
        refused(&folder, 2, &["write", "square.pnl", "-o", out], said);
        refused(&folder, 2, &["write", "nodes.txt", "panels.txt", "-o", out], said);
        let words = [
            "move",
            "square.pnl",
            "square.npy",
            "--node",
            "0",
            "--to",
            "0",
            "0",
            "1",
            "--rule",
            "3",
            "-o",
            out,
            "--mesh-out",
            "square.pnl",
        ];
        refused(&folder, 2, &words, said);
        let words = [
            "move",
            "square.pnl",
            "square.npy",
            "--node",
            "0",
            "--to",
            "0",
            "0",
            "1",
            "--rule",
            "3",
            "-o",
            "square.npy",
            "--mesh-out",
            out,
        ];
        refused(&folder, 2, &words, said);
    }
    // a file that is not to be written, even by who could
    folder.put("kept.npy", b"kept");
    let kept = folder.0.join("kept.npy");
    std::fs::set_permissions(&kept, Permissions::from_mode(0o444)).unwrap();
    let words = ["matrix", "square.pnl", "--rule", "3", "-o", "kept.npy"];
    refused(&folder, 2, &words, "kept.npy: the file is not to be written");
    // the same file by two names
    let words = [
        "move",
        "square.pnl",
        "square.npy",
        "--node",
        "0",
        "--to",
        "0",
        "0",
        "1",
        "--rule",
        "3",
        "-o",
        "square.npy",
        "--mesh-out",
        "taken/../square.npy",
    ];
    refused(&folder, 2, &words, "-o and --mesh-out name the same file");
}

#[test]
fn file_of_a_gigabyte() {
    let folder = Folder::new("gigabyte");
    gigabyte(&folder, "zeros", &[]);
    refused_by_all(&folder, "zeros", 1, "number 14 (mark)");
    matrix_refused(&folder, "zeros", 2, "it does not begin with the mark");
    refused(
        &folder,
        2,
        &["energy", "square.npy", "--values", "zeros"],
        "zeros: too long for nodal values",
    );
    rows_refused(&folder, "zeros", "panels.txt", 2, "zeros: too long for nodes");
    rows_refused(&folder, "nodes.txt", "zeros", 2, "zeros: too long for panels");
    gigabyte(&folder, "panels", &square_file());
    refused_by_all(&folder, "panels", 1, "number 15 (file length)");
    refused(&folder, 1, &["density", "panels"], "number 15 (file length)");
    gigabyte(&folder, "counts", b"PNL\x01\x00\xff\xff\xff\xff");
    refused_by_all(&folder, "counts", 1, "number 11 (too large)");
    gigabyte(&folder, "matrix", &npy("(4, 4)", &[]));
    matrix_refused(&folder, "matrix", 2, "something stands behind its numbers");
    gigabyte(&folder, "rows", &npy("(4, 3)", &[]));
    rows_refused(&folder, "rows", "panels.txt", 2, "something stands behind its numbers");
    gigabyte(&folder, "rows", &npy_whole("(44739242, 3)", &[]));
    rows_refused(&folder, "nodes.txt", "rows", 1, "rows: refused, number 11 (too large)");
    gigabyte(&folder, "store", &folder.get("square.shapes"));
    store_refused(
        &folder,
        "store",
        1,
        "store: not the 840 bytes of a store for 4 nodes: refused, number 6",
    );
    shapes_refused(&folder, "store", "store: not a store of shapes");
}

#[test]
fn file_without_end() {
    let folder = Folder::new("endless");
    refused_by_all(&folder, "/dev/zero", 1, "number 14 (mark)");
    matrix_refused(&folder, "/dev/zero", 2, "it does not begin with the mark");
    refused(
        &folder,
        2,
        &["energy", "square.npy", "--values", "/dev/zero"],
        "too long for nodal values",
    );
    rows_refused(&folder, "/dev/zero", "panels.txt", 2, "/dev/zero: too long for nodes");
    store_refused(&folder, "/dev/zero", 1, "number 6 (output)");
    shapes_refused(&folder, "/dev/zero", "/dev/zero: not a store of shapes");
}

#[test]
fn words_that_are_not_text() {
    let folder = Folder::new("words");
    let strange = OsStr::from_bytes(b"a\xff\xfeb");
    let plain = |word: &'static str| OsStr::new(word);
    for words in [
        vec![strange],
        vec![plain("check"), strange],
        vec![plain("row"), plain("square.npy"), strange],
        vec![
            plain("matrix"),
            plain("square.pnl"),
            plain("--rule"),
            strange,
            plain("-o"),
            strange,
        ],
        vec![plain("help"), strange],
    ] {
        assert_eq!(folder.run(&words).status, Some(2), "{words:?}");
    }
    // a name for a file may be any bytes
    let words = [plain("plot"), plain("square.pnl"), plain("-o"), strange];
    assert_eq!(folder.run(&words).status, Some(0));
    assert!(folder.0.join(strange).is_file());
}

#[test]
fn any_bytes_at_all() {
    let folder = Folder::new("any");
    let start = [
        &b"PNL\x01\x00\x04\x00\x02\x00"[..],
        b"\x93NUMPY\x01\x00\x76\x00{'descr': '<f8', 'shape': (",
        b"1 2 ",
        b"",
    ];
    let mut word = 0x9e37_79b9_7f4a_7c15u64;
    for i in 0..60 {
        let mut bytes = start[i % start.len()].to_vec();
        for _ in 0..(word % 300) {
            word = word
                .wrapping_mul(6_364_136_223_846_793_005)
                .wrapping_add(1_442_695_040_888_963_407);
            bytes.push((word >> 56) as u8);
        }
        folder.put("any", &bytes);
        for words in [
            vec!["check", "any"],
            vec!["row", "any", "0"],
            vec!["density", "any"],
            vec!["energy", "square.npy", "--values", "any"],
            vec!["plot", "any", "-o", "any.svg"],
            vec!["write", "any", "-o", "any.pnl"],
            vec!["write", "any", "panels.txt", "-o", "any.pnl"],
            vec!["write", "nodes.txt", "any", "-o", "any.pnl"],
            vec!["shapes", "any"],
            vec!["save", "square.pnl", "any", "--name", "a"],
            vec!["drop", "any", "any", "--name", "a"],
        ] {
            let ran = folder.run(&words);
            assert!(matches!(ran.status, Some(0..=2)), "{words:?} {ran:?}");
        }
    }
}
