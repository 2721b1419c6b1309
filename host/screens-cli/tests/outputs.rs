//! What the tool writes: matrices as NumPy reads them, panel files and stores byte by byte, pictures, and pipes that close early.
mod common;
use common::{FREE, Folder, npy, npy_whole, place, raised, square, square_file, square_places, store};
use screens::{QuadratureKind, TriangleMesh, triangle_mesh_inductance_matrix};
use std::ffi::OsStr;
use std::os::unix::ffi::OsStrExt;
use std::path::Path;
use std::process::Stdio;

fn done(folder: &Folder, words: &str) -> String {
    let words: Vec<&str> = words.split(' ').collect();
    let ran = folder.run(&words);
    assert_eq!((ran.status, &*ran.err), (Some(0), ""), "{words:?}");
    ran.out
}

#[test]
fn matrix_is_a_numpy_file() {
    let folder = Folder::new("numpy");
    for rule in QuadratureKind::ALL {
        done(
            &folder,
            &format!("matrix square.pnl --rule {} -o out.npy", rule.number()),
        );
        let mut due = vec![0.0; 16];
        triangle_mesh_inductance_matrix(&square().view(), rule, &mut due).unwrap();
        assert_eq!(folder.get("out.npy"), npy("(4, 4)", &due));
    }
    folder.put("empty.pnl", b"PNL\x01\x00\x00\x00\x00\x00");
    done(&folder, "matrix empty.pnl --rule 1 -o empty.npy");
    assert_eq!(folder.get("empty.npy"), npy("(0, 0)", &[]));
}

#[test]
fn other_versions_of_numpy_files_are_read() {
    let folder = Folder::new("versions");
    let file = folder.get("square.npy");
    let due = done(&folder, "row square.npy 1");
    for version in [2, 3] {
        let head = [&b"\x93NUMPY"[..], &[version, 0, 0x76, 0, 0, 0]].concat();
        folder.put("other.npy", &[&head, &file[10..]].concat());
        assert_eq!(done(&folder, "row other.npy 1"), due);
    }
    let energy = done(&folder, "energy square.npy --values values.txt");
    folder.put("values.npy", &npy("(4,)", &[1.0, 2.0, 4.0, 8.0]));
    assert_eq!(done(&folder, "energy square.npy --values values.npy"), energy);
}

#[test]
fn a_row_shows_halves_as_the_even_number() {
    let folder = Folder::new("halves");
    let cells = [1.0, 3.0, 5.0, -1.0, -3.0, -5.0, 7.0, -7.0, -0.0].map(|k| k / 1024.0);
    folder.put("halves.npy", &npy("(3, 3)", &cells));
    for (node, due) in [
        (0, "0 976562\n1 2929688\n2 4882812\n"),
        (1, "0 -976562\n1 -2929688\n2 -4882812\n"),
        (2, "0 6835938\n1 -6835938\n2 0\n"),
    ] {
        assert_eq!(done(&folder, &format!("row halves.npy {node}")), due);
    }
}

#[test]
fn a_run_of_moves_ends_in_the_fresh_matrix() {
    let folder = Folder::new("moves");
    done(&folder, "matrix hole.pnl --rule 2 -o hole.npy");
    for (node, place) in [
        (0, "-0.1 0 0.1"),
        (77, "0.5 0.3 0.01"),
        (0, "-0.2 -0.1 0"),
        (263, "1 1.1 -0.2"),
    ] {
        done(
            &folder,
            &format!("move hole.pnl hole.npy --node {node} --to {place} --rule 2 -o hole.npy --mesh-out hole.pnl"),
        );
    }
    done(&folder, "matrix hole.pnl --rule 2 -o fresh.npy");
    assert!(folder.get("hole.npy") == folder.get("fresh.npy"));
    let mesh = TriangleMesh::from_panel_file(&folder.get("hole.pnl")).unwrap();
    assert_eq!(mesh.view().node(0), [-0.2, -0.1, 0.0]);
}

#[test]
fn a_move_notes_cells_that_differ_from_their_mirror() {
    let folder = Folder::new("mirror");
    let line = "move square.pnl given.npy --node 3 --to 1.25 1.5 -0.5 --rule 3 -o out.npy";
    let words: Vec<&str> = line.split(' ').collect();
    let counted: Vec<f64> = (0..16).map(f64::from).collect();
    let mut one = [3.0; 16];
    one[13] = 4.0;
    let note = "below the diagonal differ from their mirror; compute the matrix anew";
    let note_of_one = "below the diagonal differs from its mirror; compute the matrix anew";
    for (given, said) in [
        (&counted[..], format!("note: 6 cells {note}\n")),
        (&one, format!("note: 1 cell {note_of_one}\n")),
        (&[3.0; 16], String::new()),
    ] {
        folder.put("given.npy", &npy("(4, 4)", given));
        let ran = folder.run(&words);
        assert_eq!((ran.status, ran.err), (Some(0), said));
        assert!(
            ran.out.ends_with("\n15 of 16 cells renewed\nwrote out.npy\n"),
            "{}",
            ran.out
        );
        let (mut mesh, mut due) = (square(), given.to_vec());
        mesh.move_node(QuadratureKind::Dunavant3, &mut due, 3, [1.25, 1.5, -0.5])
            .unwrap();
        assert_eq!(folder.get("out.npy"), npy("(4, 4)", &due));
    }
    folder.put("given.npy", &npy("(4, 4)", &counted));
    let refused = folder.run(&line.replace("--node 3", "--node 4").split(' ').collect::<Vec<_>>());
    assert_eq!(refused.status, Some(1));
    assert!(!refused.err.contains("note"), "{}", refused.err);
}

#[test]
fn a_return_notes_cells_that_differ_from_their_mirror() {
    let folder = Folder::new("return-mirror");
    let counted: Vec<f64> = (0..16).map(f64::from).collect();
    folder.put("given.npy", &npy("(4, 4)", &counted));
    let line = "return square.pnl square.shapes given.npy --name raised --rule 3 -o out.npy";
    let ran = folder.run(&line.split(' ').collect::<Vec<_>>());
    let note = "note: 6 cells below the diagonal differ from their mirror; compute the matrix anew\n";
    assert_eq!((ran.status, &*ran.err), (Some(0), note));
    // of any numbers cell (0, 0) alone is kept: every other is of a node of the raised panel
    let mut due = matrix_of(&raised(), QuadratureKind::Dunavant3);
    due[0] = counted[0];
    assert_eq!(folder.get("out.npy"), npy("(4, 4)", &due));
    assert!(
        ran.out.ends_with("\n15 of 16 cells renewed\nwrote out.npy\n"),
        "{}",
        ran.out
    );
}

fn matrix_of(mesh: &TriangleMesh, rule: QuadratureKind) -> Vec<f64> {
    let mut matrix = vec![0.0; mesh.view().nnode().pow(2)];
    triangle_mesh_inductance_matrix(&mesh.view(), rule, &mut matrix).unwrap();
    matrix
}

#[test]
fn a_store_byte_by_byte() {
    let folder = Folder::new("store");
    folder.put("raised.pnl", &raised().to_panel_file());
    let mut places = [FREE; 8];
    for (k, name) in ["as-cast", "2", "3", "4", "5", "6", "7", "as drawn"]
        .into_iter()
        .enumerate()
    {
        let mut bytes = [0; 8];
        bytes[..name.len()].copy_from_slice(name.as_bytes());
        places[k] = place(1, &bytes, 0.0);
        let ran = folder.run(&["save", "square.pnl", "new.shapes", "--name", name]);
        assert_eq!((ran.status, &*ran.err), (Some(0), ""));
        assert_eq!(folder.get("new.shapes"), store(&places), "{name}");
    }
    assert_eq!(folder.get("new.shapes").len(), 72 + 192 * 4);
    // a held name in a store without a free place
    places[4] = place(1, b"5\0\0\0\0\0\0\0", 0.5);
    done(&folder, "save raised.pnl new.shapes --name 5");
    assert_eq!(folder.get("new.shapes"), store(&places));
    // a dropped place keeps its name and its numbers
    places[2].0 = 0;
    done(&folder, "drop square.pnl new.shapes --name 3");
    assert_eq!(folder.get("new.shapes"), store(&places));
    // the first free place, past a stale name, and a mark that stays
    let mut places = square_places();
    places[1] = place(1, b"new\0\0\0\0\0", 0.5);
    done(&folder, "save raised.pnl square.shapes --name new");
    assert_eq!(folder.get("square.shapes"), store(&places));
    places[2] = place(7, b"raised\0\0", 0.0);
    done(&folder, "save square.pnl square.shapes --name raised");
    assert_eq!(folder.get("square.shapes"), store(&places));
}

#[test]
fn a_return_writes_the_named_shape() {
    let folder = Folder::new("return");
    let kept = folder.get("square.shapes");
    let line = "return square.pnl square.shapes square.npy --name raised --rule 3 -o";
    let due = npy("(4, 4)", &matrix_of(&raised(), QuadratureKind::Dunavant3));
    done(&folder, &format!("{line} out.npy"));
    assert_eq!(folder.get("out.npy"), due);
    assert_eq!(folder.get("square.pnl"), square_file());
    let (first, before) = (folder.get("square.npy"), folder.contents().len());
    done(&folder, &format!("{line} square.npy --mesh-out square.pnl"));
    assert_eq!(folder.get("square.npy"), due);
    assert_eq!(folder.get("square.pnl"), raised().to_panel_file());
    done(
        &folder,
        &line
            .replace("raised", "as-cast")
            .replace(" -o", " -o square.npy --mesh-out square.pnl"),
    );
    assert_eq!(
        (folder.get("square.npy"), folder.get("square.pnl")),
        (first, square_file())
    );
    assert_eq!((folder.get("square.shapes"), folder.contents().len()), (kept, before));
}

#[test]
fn a_run_of_moves_is_taken_back() {
    let folder = Folder::new("taken-back");
    done(&folder, "matrix hole.pnl --rule 2 -o hole.npy");
    let (mesh, matrix) = (folder.get("hole.pnl"), folder.get("hole.npy"));
    done(&folder, "save hole.pnl hole.shapes --name as-cast");
    for (node, place) in [(0, "-0.1 0 0.1"), (77, "0.5 0.3 0.01"), (263, "1 1.1 -0.2")] {
        let line =
            format!("move hole.pnl hole.npy --node {node} --to {place} --rule 2 -o hole.npy --mesh-out hole.pnl");
        done(&folder, &line);
    }
    assert!(folder.get("hole.pnl") != mesh && folder.get("hole.npy") != matrix);
    done(
        &folder,
        "return hole.pnl hole.shapes hole.npy --name as-cast --rule 2 -o hole.npy --mesh-out hole.pnl",
    );
    assert!(folder.get("hole.pnl") == mesh && folder.get("hole.npy") == matrix);
}

#[test]
fn names_of_any_bytes() {
    let folder = Folder::new("names");
    let names: [(&[u8], &str); 5] = [
        (b"as cast", "as cast"),
        (b"end ", "end\\x20"),
        (b"\xff\xfe\n", "\\xff\\xfe\\n"),
        (b"--rule", "--rule"),
        (b"gek\xc3\xbchlt", "gekühlt"),
    ];
    let mut due = String::new();
    for (place, (name, shown)) in names.into_iter().enumerate() {
        let words = ["save", "square.pnl", "new.shapes", "--name"].map(OsStr::new);
        let ran = folder.run(&[&words[..], &[OsStr::from_bytes(name)]].concat());
        assert_eq!((ran.status, &*ran.err), (Some(0), ""));
        assert!(
            ran.out.contains(&format!("\"{shown}\", place {place}\n")),
            "{}",
            ran.out
        );
        due += &format!("{place} 1 {shown}\n");
    }
    assert_eq!(done(&folder, "shapes new.shapes"), due);
    let places: [_; 8] = std::array::from_fn(|k| place(k as u8 * 36, &[0, b'\\', b'"', 0, k as u8, 0, 0, 0], 0.0));
    folder.put("new.shapes", &store(&places));
    let due: String = (1..8)
        .map(|k| format!("{k} {} \\0\\\\\\\"\\0\\u{{{k}}}\n", 36 * k))
        .collect();
    assert_eq!(done(&folder, "shapes new.shapes"), due);
}

#[test]
fn stores_of_the_least_and_the_most_nodes() {
    let folder = Folder::new("stores");
    folder.put("empty.pnl", b"PNL\x01\x00\x00\x00\x00\x00");
    folder.put("empty.npy", &npy("(0, 0)", &[]));
    done(&folder, "save empty.pnl empty.shapes --name as-cast");
    assert_eq!(
        folder.get("empty.shapes"),
        [&[1, 0, 0, 0, 0, 0, 0, 0][..], b"as-cast\0", &[0; 56]].concat()
    );
    let said = done(
        &folder,
        "return empty.pnl empty.shapes empty.npy --name as-cast --rule 1 -o out.npy --mesh-out out.pnl",
    );
    assert!(said.contains("\n0 of 0 cells renewed\n"), "{said}");
    assert_eq!(
        (folder.get("out.npy"), folder.get("out.pnl").len()),
        (npy("(0, 0)", &[]), 9)
    );
    done(&folder, "drop empty.pnl empty.shapes --name as-cast");
    assert_eq!(done(&folder, "shapes empty.shapes"), "empty.shapes: no place is held\n");

    let (nodes, _, file) = strip(4096, 8192);
    folder.put("strip.pnl", &file);
    done(&folder, "save strip.pnl strip.shapes --name as-cast");
    let saved = folder.get("strip.shapes");
    assert_eq!(saved.len(), 72 + 192 * 4096);
    // the last node's x, y and z in place 0 of each column
    for axis in 0..3 {
        let at = 72 + 8 * (8 * 4096 * axis + 4095);
        assert_eq!(saved[at..][..8], nodes[3 * 4095 + axis].to_le_bytes());
    }
    assert_eq!(done(&folder, "shapes strip.shapes"), "0 1 as-cast\n");
    done(&folder, "drop strip.pnl strip.shapes --name as-cast");
}

/// A strip of so many nodes with a panel for every three in a row, as many as are asked for: rows of both, and the panel file.
fn strip(nodes: u16, panels: u16) -> (Vec<f64>, Vec<i64>, Vec<u8>) {
    let node = |k: u16| [f64::from(k), f64::from(k % 2), 0.1];
    let panel = |i: u16| [0, 1, 2].map(|corner| i % (nodes - 2) + corner);
    let x: Vec<f64> = (0..nodes).flat_map(node).collect();
    let t: Vec<u16> = (0..panels).flat_map(panel).collect();
    let mut file = b"PNL\x01\x00".to_vec();
    file.extend([nodes, panels].map(u16::to_le_bytes).as_flattened());
    file.extend(x.iter().flat_map(|x| x.to_le_bytes()));
    file.extend(t.iter().flat_map(|k| k.to_le_bytes()));
    (x, t.into_iter().map(i64::from).collect(), file)
}

/// A text with a row of three a line.
fn text<T: std::fmt::Debug>(numbers: &[T]) -> Vec<u8> {
    let line = |row: &[T]| format!("{:?} {:?} {:?}\n", row[0], row[1], row[2]);
    numbers.chunks(3).map(line).collect::<String>().into_bytes()
}

#[test]
fn panel_files_of_rows() {
    let folder = Folder::new("rows");
    let said = "nodes.txt and panels.txt: accepted\nnodes 4\npanels 2\npoor panels 0\nnodes that are not finite 0\n";
    let ran = done(&folder, "write nodes.txt panels.txt -o out.pnl");
    assert_eq!(ran, format!("{said}wrote out.pnl\n"));
    assert_eq!(folder.get("out.pnl"), square_file());
    folder.put(
        "nodes.npy",
        &npy("(4, 3)", &[0.0, 0.0, 0.0, 1.0, 0.0, 0.0, 0.0, 1.0, 0.0, 1.0, 1.0, 0.0]),
    );
    folder.put("panels.npy", &npy_whole("(2, 3)", &[0, 1, 2, 1, 3, 2]));
    for words in ["nodes.npy panels.npy", "nodes.npy panels.txt", "nodes.txt panels.npy"] {
        folder.put("out.pnl", b"");
        done(&folder, &format!("write {words} -o out.pnl"));
        assert_eq!(folder.get("out.pnl"), square_file(), "{words}");
    }
    // the input's own name
    done(&folder, "write nodes.npy panels.npy -o nodes.npy");
    assert_eq!(folder.get("nodes.npy"), square_file());
}

#[test]
fn panel_files_of_no_rows() {
    let folder = Folder::new("no-rows");
    folder.put("remark.txt", b"# nothing\n\n");
    folder.put("empty.txt", b"");
    folder.put("nodes.npy", &npy("(0, 3)", &[]));
    folder.put("panels.npy", &npy_whole("(0, 3)", &[]));
    for words in ["empty.txt remark.txt", "nodes.npy panels.npy", "remark.txt panels.npy"] {
        done(&folder, &format!("write {words} -o out.pnl"));
        assert_eq!(folder.get("out.pnl"), b"PNL\x01\x00\x00\x00\x00\x00", "{words}");
    }
    done(&folder, "write nodes.txt panels.npy -o out.pnl");
    let due = [&b"PNL\x01\x00\x04\x00\x00\x00"[..], &square_file()[9..105]].concat();
    assert_eq!(folder.get("out.pnl"), due);
}

#[test]
fn the_largest_panel_file() {
    let folder = Folder::new("largest");
    let (nodes, panels, file) = strip(4096, 8192);
    folder.put("nodes.npy", &npy("(4096, 3)", &nodes));
    folder.put("panels.npy", &npy_whole("(8192, 3)", &panels));
    folder.put("nodes.txt", &text(&nodes));
    folder.put("panels.txt", &text(&panels));
    assert_eq!(file.len(), 147_465);
    for words in ["nodes.npy panels.npy", "nodes.txt panels.txt"] {
        done(&folder, &format!("write {words} -o out.pnl"));
        assert!(folder.get("out.pnl") == file, "{words}");
    }
    done(&folder, "write out.pnl -o again.pnl");
    assert!(folder.get("again.pnl") == file);
}

#[test]
fn numbers_of_a_text_by_their_bits() {
    let folder = Folder::new("bits");
    folder.put(
        "nodes.txt",
        b"0 0 0\n1 0 0\n0 1 0\n\
          -0 5e-324 0.1 # in no panel\n\
          inf -INF nan\n\
          1e999 -NaN 9007199254740993\n",
    );
    folder.put("panels.txt", b"0 1 2\n");
    let said = done(&folder, "write nodes.txt panels.txt -o out.pnl");
    assert!(said.contains("\nnodes that are not finite 2\n"), "{said}");
    let written = folder.get("out.pnl");
    let (numbers, _) = written[9 + 3 * 24..][..3 * 24].as_chunks::<8>();
    let due: [u64; 9] = [
        0x8000_0000_0000_0000,
        1,
        0x3fb9_9999_9999_999a,
        0x7ff0_0000_0000_0000,
        0xfff0_0000_0000_0000,
        0x7ff8_0000_0000_0000,
        0x7ff0_0000_0000_0000,
        0x7ff8_0000_0000_0000,
        0x4340_0000_0000_0000,
    ];
    assert_eq!(*numbers, due.map(u64::to_le_bytes));
}

#[test]
fn panel_files_are_written_as_they_were() {
    let folder = Folder::new("anew");
    for name in ["plate.pnl", "bent.pnl", "hole.pnl", "square.pnl"] {
        let file = folder.get(name);
        let said = done(&folder, &format!("check {name}"));
        assert_eq!(
            done(&folder, &format!("write {name} -o out.pnl")),
            said.clone() + "wrote out.pnl\n"
        );
        assert!(folder.get("out.pnl") == file, "{name}");
        assert_eq!(
            done(&folder, &format!("write {name} -o {name}")),
            said + &format!("wrote {name}\n")
        );
        assert!(folder.get(name) == file, "{name}");
    }
}

#[test]
fn any_nan_of_a_panel_file_becomes_one() {
    let folder = Folder::new("nan");
    let mut file = square_file();
    // z of node 3, whose bytes end at 105
    file[97..105].copy_from_slice(&[1, 0, 0, 0, 0, 0, 0xf0, 0xff]);
    folder.put("other.pnl", &file);
    done(&folder, "write other.pnl -o other.pnl");
    file[97..105].copy_from_slice(&[0, 0, 0, 0, 0, 0, 0xf8, 0x7f]);
    assert_eq!(folder.get("other.pnl"), file);
    done(&folder, "matrix other.pnl --rule 3 -o other.npy");
    done(
        &folder,
        "move other.pnl other.npy --node 0 --to 0 0 0 --rule 3 -o other.npy --mesh-out moved.pnl",
    );
    assert_eq!(folder.get("moved.pnl"), file);
}

#[test]
fn density_as_the_program_prints_it() {
    let folder = Folder::new("density");
    let mut file = b"PNL\x01\x00\x03\x00\x01\x00".to_vec();
    for x in [0.0, 0.0, 0.0, 1.0, 0.0, 0.0, 0.0, 1.0, 0.0f64] {
        file.extend(x.to_le_bytes());
    }
    file.extend([0, 0, 1, 0, 2, 0]);
    for x in [1.0, 2.0, 4.0f64] {
        file.extend(x.to_le_bytes());
    }
    assert_eq!(file.len(), 111);
    folder.put("example", &file);
    let due = "PNL 1 3 1\n0 c008000000000000 3ff0000000000000 0000000000000000\n";
    assert_eq!(done(&folder, "density example --bits"), due);
    assert_eq!(done(&folder, "density example"), "PNL 1 3 1\n0 -3 1 0\n");
}

#[test]
fn picture_as_stored() {
    let folder = Folder::new("picture");
    done(&folder, "plot square.pnl -o square.svg");
    let path = Path::new(env!("CARGO_MANIFEST_DIR")).join("tests/sessions/square.svg");
    if std::env::var_os("SCREENS_STORE").is_some() {
        std::fs::write(&path, folder.get("square.svg")).unwrap();
    }
    assert_eq!(folder.get("square.svg"), std::fs::read(path).unwrap());
}

#[test]
fn links_are_followed_and_nothing_is_left_over() {
    let folder = Folder::new("links");
    std::fs::create_dir(folder.0.join("store")).unwrap();
    folder.put("store/kept.npy", b"old");
    std::os::unix::fs::symlink("store/kept.npy", folder.0.join("link.npy")).unwrap();
    done(&folder, "matrix square.pnl --rule 3 -o link.npy");
    assert_eq!(folder.get("store/kept.npy"), folder.get("square.npy"));
    assert!(
        std::fs::symlink_metadata(folder.0.join("link.npy"))
            .unwrap()
            .is_symlink()
    );
    assert_eq!(std::fs::read_dir(folder.0.join("store")).unwrap().count(), 1);
    std::fs::rename(folder.0.join("square.shapes"), folder.0.join("store/kept.shapes")).unwrap();
    std::os::unix::fs::symlink("store/kept.shapes", folder.0.join("link.shapes")).unwrap();
    done(&folder, "drop square.pnl link.shapes --name as-cast");
    assert_eq!(folder.get("store/kept.shapes")[..8], [0, 0, 7, 0, 0, 0, 0, 0]);
    assert_eq!(std::fs::read_dir(folder.0.join("store")).unwrap().count(), 2);
}

#[test]
fn closed_pipes() {
    let folder = Folder::new("pipes");
    done(&folder, "matrix plate.pnl --rule 1 -o plate.npy");
    // nobody reads what is printed
    let mut child = folder
        .command(&["row", "plate.npy", "0"])
        .stdout(Stdio::piped())
        .stderr(Stdio::piped())
        .spawn()
        .unwrap();
    drop(child.stdout.take());
    let ran = child.wait_with_output().unwrap();
    assert_eq!((ran.status.code(), &*ran.stderr), (Some(0), &b""[..]));
    // nor the message
    let mut child = folder
        .command(&["row", "none.npy", "0"])
        .stderr(Stdio::piped())
        .spawn()
        .unwrap();
    drop(child.stderr.take());
    assert_eq!(child.wait().unwrap().code(), Some(2));
    // no room for what is printed
    let full = std::fs::File::options().write(true).open("/dev/full").unwrap();
    let ran = folder
        .command(&["row", "plate.npy", "0"])
        .stdout(full)
        .stderr(Stdio::piped())
        .output()
        .unwrap();
    assert_eq!(ran.status.code(), Some(2));
    assert!(String::from_utf8_lossy(&ran.stderr).contains("standard output: "));
}
