//! The file of a store of shapes: 8 marks, 64 bytes of names, then the columns x, y and z of 8n float64 each, little-endian.
use crate::args::Args;
use crate::failure::Failure;
use crate::files;
use screens::mesh::MAX_NODES;
use screens::{Refusal, Shapes, TriangleMesh, shape_name};
use std::ffi::OsStr;
use std::fs::File;
use std::io::{self, ErrorKind, Write};
use std::path::Path;

/// Marks and names.
const HEAD: usize = 8 + 64;

/// The bytes of one node: three coordinates in each of eight places.
const NODE: usize = 8 * 3 * 8;

/// One byte more than the longest store: what is longer belongs to no mesh.
const MOST: u64 = (HEAD + NODE * MAX_NODES + 1) as u64;

/// Reads the store of a mesh. Another length is refused with 6.
pub(crate) fn read(path: &Path, mesh: &TriangleMesh) -> Result<Shapes, Failure> {
    of_mesh(&mut files::open(path)?, path, mesh)
}

/// The same; a store of free places if there is no such file.
pub(crate) fn read_or_new(path: &Path, mesh: &TriangleMesh) -> Result<Shapes, Failure> {
    match File::open(path) {
        Ok(mut file) => of_mesh(&mut file, path, mesh),
        Err(error) if error.kind() == ErrorKind::NotFound => Ok(Shapes::new(mesh.view().nnode())),
        Err(error) => Err(Failure::file(path, error)),
    }
}

fn of_mesh(file: &mut File, path: &Path, mesh: &TriangleMesh) -> Result<Shapes, Failure> {
    let bytes = files::read_at_most(file, path, MOST)?;
    let nodes = mesh.view().nnode();
    match parsed(&bytes) {
        Some((found, shapes)) if found == nodes => Ok(shapes),
        _ => {
            let due = HEAD + NODE * nodes;
            let what = format!("{}: not the {due} bytes of a store for {nodes} nodes", path.display());
            Err(Failure::Refused(what, Refusal::Output))
        }
    }
}

/// Reads a store of any node count.
pub(crate) fn read_any(path: &Path) -> Result<Shapes, Failure> {
    let bytes = files::read_at_most(&mut files::open(path)?, path, MOST)?;
    match parsed(&bytes) {
        Some((_, shapes)) => Ok(shapes),
        None => Err(Failure::file(
            path,
            format!(
                "not a store of shapes: its length is not {HEAD} + {NODE}n bytes for any n up to {MAX_NODES} nodes"
            ),
        )),
    }
}

/// The node count and the store of a file's bytes, if they have the length of a store.
fn parsed(bytes: &[u8]) -> Option<(usize, Shapes)> {
    let (marks, rest) = bytes.split_first_chunk::<8>()?;
    let (names, rest) = rest.split_first_chunk::<64>()?;
    let nodes = rest.len() / NODE;
    if rest.len() % NODE != 0 || nodes > MAX_NODES {
        return None;
    }
    let (numbers, _) = rest.as_chunks::<8>();
    let column = |k: usize| {
        let part = &numbers[k * 8 * nodes..(k + 1) * 8 * nodes];
        part.iter().map(|number| f64::from_le_bytes(*number)).collect()
    };
    let columns = (column(0), column(1), column(2));
    Some((nodes, Shapes::from_parts(*marks, *names, columns)))
}

/// Replaces the file of a store, or makes it.
pub(crate) fn replace(path: &Path, shapes: &Shapes) -> Result<(), Failure> {
    files::save(path, |file| write(shapes, file))
}

fn write(shapes: &Shapes, out: &mut dyn Write) -> io::Result<()> {
    out.write_all(shapes.marks())?;
    out.write_all(shapes.name_bytes())?;
    let (x, y, z) = shapes.columns();
    let mut numbers = [x, y, z].into_iter().flatten();
    numbers.try_for_each(|number| out.write_all(&number.to_le_bytes()))
}

/// What is said of a store that was written.
pub(crate) fn written(path: &Path, shapes: &Shapes) -> String {
    let held = shapes.names().count();
    format!("{held} of 8 places held\nwrote {}\n", path.display())
}

/// The first place that holds a name; 8 if none does.
pub(crate) fn place(shapes: &Shapes, name: &[u8; 8]) -> usize {
    let mut names = shapes.names();
    names.find(|(_, _, held)| held == name).map_or(8, |(place, _, _)| place)
}

/// The name of `--name`: one to eight bytes, filled with zero bytes.
pub(crate) fn name(args: &mut Args) -> Result<[u8; 8], Failure> {
    named(&args.needed_word("--name")?)
}

fn named(word: &OsStr) -> Result<[u8; 8], Failure> {
    let bytes = word.as_encoded_bytes();
    match shape_name(bytes) {
        Some(name) if !bytes.is_empty() => Ok(name),
        _ => {
            let (word, count) = (word.display(), bytes.len());
            let what = format!("--name: a name has one to eight bytes, and \"{word}\" has {count}");
            Err(Failure::usage(what))
        }
    }
}

/// A name as it is shown: without the zero bytes that fill it, and with what would not be seen escaped.
pub(crate) fn shown(name: &[u8; 8]) -> String {
    let end = name.iter().rposition(|byte| *byte != 0).map_or(0, |last| last + 1);
    let mut text = String::new();
    for chunk in name[..end].utf8_chunks() {
        for c in chunk.valid().chars() {
            match c {
                '\'' => text.push(c),
                _ => text.extend(c.escape_debug()),
            }
        }
        for byte in chunk.invalid() {
            text += &format!("\\x{byte:02x}");
        }
    }
    // a space at the end, or no byte at all
    match text.strip_suffix(' ') {
        Some(before) => format!("{before}\\x20"),
        None if text.is_empty() => "\\0".to_string(),
        None => text,
    }
}

#[cfg(test)]
mod tests {
    use super::*;

    #[test]
    fn names_as_they_are_shown() {
        for (name, due) in [
            (b"as cast\0", "as cast"),
            (b"as drawn", "as drawn"),
            (b"\0\0\0\0\0\0\0\0", "\\0"),
            (b"bent    ", "bent   \\x20"),
            (b"a\0b\0\0\0\0\0", "a\\0b"),
            (b"a\nb\x1b\x7f\0\0\0", "a\\nb\\u{1b}\\u{7f}"),
            (b"\\\"'\0\0\0\0\0", "\\\\\\\"'"),
            (b"k\xc3\xbchl\xff\xc3\0", "kühl\\xff\\xc3"),
        ] {
            assert_eq!(shown(name), due);
        }
    }

    #[test]
    fn names_of_one_to_eight_bytes() {
        assert_eq!(named(OsStr::new("as cast")).unwrap(), *b"as cast\0");
        assert_eq!(named(OsStr::new("-o drawn")).unwrap(), *b"-o drawn");
        assert_eq!(named(OsStr::new("kühler")).unwrap(), *b"k\xc3\xbchler\0");
        let message = |word: &str| named(OsStr::new(word)).unwrap_err().to_string();
        assert_eq!(message(""), "--name: a name has one to eight bytes, and \"\" has 0");
        assert_eq!(
            message("as welded"),
            "--name: a name has one to eight bytes, and \"as welded\" has 9"
        );
        assert_eq!(
            message("kühlkörp"),
            "--name: a name has one to eight bytes, and \"kühlkörp\" has 10"
        );
    }

    #[test]
    fn a_store_is_read_as_it_was_written() {
        let column = |from: u32| (from..from + 16).map(f64::from).collect::<Vec<f64>>();
        let marks = [0, 1, 7, 255, 0, 2, 3, 4];
        let names = std::array::from_fn(|k| k as u8);
        let shapes = Shapes::from_parts(marks, names, (column(0), column(100), column(200)));
        let mut file = vec![];
        write(&shapes, &mut file).unwrap();
        assert_eq!(file.len(), 72 + 192 * 2);
        assert_eq!((&file[..8], &file[8..72]), (&marks[..], &names[..]));
        let number = |at: usize| f64::from_le_bytes(file[at..at + 8].try_into().unwrap());
        assert_eq!(
            (number(72), number(72 + 128), number(72 + 256 + 8)),
            (0.0, 100.0, 201.0)
        );
        assert_eq!(parsed(&file), Some((2, shapes)));
        for length in [0, 8, 71, 73, file.len() - 1] {
            assert_eq!(parsed(&file[..length]), None);
        }
        assert_eq!(
            parsed(&file[..72]),
            Some((0, Shapes::from_parts(marks, names, (vec![], vec![], vec![]))))
        );
    }
}
