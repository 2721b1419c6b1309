//! NumPy's file format for float64 and int64 in C order: a mark, a version, a dictionary as text, then the numbers, little-endian.
use crate::failure::Failure;
use crate::files;
use screens::Refusal;
use screens::mesh::MAX_NODES;
use std::io::{self, Read, Write};
use std::path::Path;

const MARK: &[u8; 6] = b"\x93NUMPY";
/// The longest dictionary that is read. One of these files has some hundred bytes.
const LONGEST_HEADER: usize = 1 << 16;

/// A number of eight bytes, with NumPy's name for it and its entry `descr`.
pub(crate) trait Number: Copy {
    const NAME: &'static str;
    const DESCR: &'static str;
    fn from_bytes(bytes: [u8; 8]) -> Self;
}

impl Number for f64 {
    const NAME: &'static str = "float64";
    const DESCR: &'static str = "<f8";
    fn from_bytes(bytes: [u8; 8]) -> Self {
        f64::from_le_bytes(bytes)
    }
}

impl Number for i64 {
    const NAME: &'static str = "int64";
    const DESCR: &'static str = "<i8";
    fn from_bytes(bytes: [u8; 8]) -> Self {
        i64::from_le_bytes(bytes)
    }
}

/// A square matrix, row by row.
pub(crate) struct Matrix {
    pub(crate) n: usize,
    pub(crate) cells: Vec<f64>,
}

impl Matrix {
    /// A matrix of zeros.
    pub(crate) fn zeros(n: usize) -> Self {
        Matrix {
            n,
            cells: vec![0.0; n * n],
        }
    }

    /// Reads a matrix of at most 4,096 rows; more is refused with 11.
    pub(crate) fn read(path: &Path) -> Result<Self, Failure> {
        let mut file = files::open(path)?;
        let shape = read_shape::<f64>(&mut file, path)?;
        let [n, columns] = shape[..] else {
            return Err(Failure::file(path, format!("not a matrix: its shape is {shape:?}")));
        };
        if n != columns {
            return Err(Failure::file(
                path,
                format!("not a square matrix: its shape is {shape:?}"),
            ));
        }
        if n > MAX_NODES {
            return Err(Failure::refused(path, Refusal::TooLarge));
        }
        Ok(Matrix {
            n,
            cells: read_numbers(&mut file, path, n * n)?,
        })
    }

    /// Writes the file of the matrix.
    pub(crate) fn write(&self, out: &mut dyn Write) -> io::Result<()> {
        out.write_all(&head(&format!("({n}, {n})", n = self.n)))?;
        self.cells
            .iter()
            .try_for_each(|cell| out.write_all(&cell.to_le_bytes()))
    }

    /// A sentence on cells that are not finite, if there are any.
    pub(crate) fn note(&self) -> String {
        match self.cells.iter().filter(|cell| !cell.is_finite()).count() {
            0 => String::new(),
            count => format!("note: {count} cells are not finite; look at the nodes of the panel file\n"),
        }
    }

    /// A sentence on cells below the diagonal that differ from their mirror, if there are any.
    pub(crate) fn mirror_note(&self) -> String {
        let cells = match self.differing() {
            0 => return String::new(),
            1 => "1 cell below the diagonal differs from its mirror".to_string(),
            count => format!("{count} cells below the diagonal differ from their mirror"),
        };
        format!("note: {cells}; compute the matrix anew\n")
    }

    /// How many cells (b, a) below the diagonal differ from (a, b). NaN is one number; −0 and +0 differ.
    fn differing(&self) -> usize {
        let cell = |a: usize, b: usize| self.cells[a * self.n + b];
        let alike = |x: f64, y: f64| x.to_bits() == y.to_bits() || (x.is_nan() && y.is_nan());
        let in_row = |b: usize| (0..b).filter(|&a| !alike(cell(b, a), cell(a, b))).count();
        (0..self.n).map(in_row).sum()
    }
}

/// Reads a row of numbers, at most so many; more are refused with 11.
pub(crate) fn read_vector(file: &mut impl Read, path: &Path, most: usize) -> Result<Vec<f64>, Failure> {
    let shape = read_shape::<f64>(file, path)?;
    match shape[..] {
        [n] if n <= most => read_numbers(file, path, n),
        [_] => Err(Failure::refused(path, Refusal::TooLarge)),
        _ => Err(Failure::file(
            path,
            format!("not one row of numbers: its shape is {shape:?}"),
        )),
    }
}

/// Reads rows of three numbers, at most so many; more are refused with 11.
pub(crate) fn read_rows<T: Number>(file: &mut impl Read, path: &Path, most: usize) -> Result<Vec<[T; 3]>, Failure> {
    let shape = read_shape::<T>(file, path)?;
    match shape[..] {
        [n, 3] if n <= most => Ok(read_numbers(file, path, 3 * n)?.as_chunks().0.to_vec()),
        [_, 3] => Err(Failure::refused(path, Refusal::TooLarge)),
        _ => Err(Failure::file(
            path,
            format!("not rows of three numbers: its shape is {shape:?}"),
        )),
    }
}

/// Whether bytes begin as a NumPy file does.
pub(crate) fn is_npy(bytes: &[u8]) -> bool {
    bytes.starts_with(MARK)
}

/// Mark, version, length and dictionary, filled up with spaces to a multiple of 64 bytes.
fn head(shape: &str) -> Vec<u8> {
    let mut text = format!("{{'descr': '<f8', 'fortran_order': False, 'shape': {shape}, }}");
    let before = MARK.len() + 4;
    let spaces = (before + text.len() + 1).next_multiple_of(64) - (before + text.len() + 1);
    text.extend(std::iter::repeat_n(' ', spaces));
    text.push('\n');
    let length = u16::try_from(text.len()).expect("a short header");
    [MARK, &[1, 0][..], &length.to_le_bytes(), text.as_bytes()].concat()
}

/// Reads up to the numbers and yields the shape.
fn read_shape<T: Number>(file: &mut impl Read, path: &Path) -> Result<Vec<usize>, Failure> {
    let bad = |what: &str| Failure::file(path, format!("not a NumPy file of {}: {what}", T::NAME));
    let start = files::read_at_most(file, path, 8)?;
    if start.len() < 8 || !is_npy(&start) {
        return Err(bad("it does not begin with the mark"));
    }
    let digits = match start[6] {
        1 => 2,
        2 | 3 => 4,
        _ => return Err(bad("its version is none of 1, 2 and 3")),
    };
    let count = files::read_at_most(file, path, digits)?;
    if count.len() < digits as usize {
        return Err(bad("it is cut short"));
    }
    let length = count.iter().rev().fold(0, |n, byte| n << 8 | usize::from(*byte));
    if length > LONGEST_HEADER {
        return Err(bad("its header is too long"));
    }
    let text = files::read_at_most(file, path, length as u64)?;
    if text.len() < length {
        return Err(bad("it is cut short"));
    }
    parse::<T>(&String::from_utf8_lossy(&text)).map_err(|what| bad(&what))
}

/// Reads so many numbers, which must be all that is left.
fn read_numbers<T: Number>(file: &mut impl Read, path: &Path, count: usize) -> Result<Vec<T>, Failure> {
    let due = 8 * count as u64;
    let bytes = files::read_at_most(file, path, due + 1)?;
    if bytes.len() as u64 != due {
        let what = if (bytes.len() as u64) < due {
            "it is cut short"
        } else {
            "something stands behind its numbers"
        };
        return Err(Failure::file(
            path,
            format!("{what}: its shape needs {due} bytes of numbers"),
        ));
    }
    let (words, _) = bytes.as_chunks::<8>();
    Ok(words.iter().map(|word| T::from_bytes(*word)).collect())
}

/// The shape in a dictionary whose other entries are those of a sort of numbers in C order.
fn parse<T: Number>(text: &str) -> Result<Vec<usize>, String> {
    let mut words = Words(text.trim());
    let (mut descr, mut order, mut shape) = (None, None, None);
    words.expect("{")?;
    while !words.take("}") {
        let key = words.quoted()?;
        words.expect(":")?;
        match key {
            "descr" => descr = Some(words.quoted().map_err(|_| "its numbers are of a compound type")?),
            "fortran_order" => order = Some(words.name()),
            "shape" => shape = Some(words.tuple()?),
            _ => return Err(format!("its header has an entry {key}")),
        }
        if !words.take(",") && !words.0.starts_with('}') {
            return Err("its header cannot be read".into());
        }
    }
    match descr {
        Some(descr) if descr == T::DESCR => {}
        Some(other) => return Err(format!("its numbers are {other}, not {}", T::DESCR)),
        None => return Err("its header has no descr".into()),
    }
    match order {
        Some("False") => {}
        Some("True") => return Err("it is in Fortran order".into()),
        _ => return Err("its header has no fortran_order".into()),
    }
    shape.ok_or_else(|| "its header has no shape".into())
}

/// What is left of a dictionary's text.
struct Words<'a>(&'a str);

impl<'a> Words<'a> {
    /// Takes a word if it stands next.
    fn take(&mut self, word: &str) -> bool {
        match self.0.strip_prefix(word) {
            Some(rest) => {
                self.0 = rest.trim_start();
                true
            }
            None => false,
        }
    }

    fn expect(&mut self, word: &str) -> Result<(), String> {
        if self.take(word) {
            Ok(())
        } else {
            Err("its header cannot be read".into())
        }
    }

    /// A text in quotes.
    fn quoted(&mut self) -> Result<&'a str, String> {
        let quote = if self.0.starts_with('"') { '"' } else { '\'' };
        let inner = self.0.strip_prefix(quote).and_then(|rest| rest.split_once(quote));
        let (text, rest) = inner.ok_or("its header cannot be read")?;
        self.0 = rest.trim_start();
        Ok(text)
    }

    /// A run of letters and digits.
    fn name(&mut self) -> &'a str {
        let end = self
            .0
            .find(|c: char| !c.is_ascii_alphanumeric())
            .unwrap_or(self.0.len());
        let (name, rest) = self.0.split_at(end);
        self.0 = rest.trim_start();
        name
    }

    /// Whole numbers in parentheses.
    fn tuple(&mut self) -> Result<Vec<usize>, String> {
        self.expect("(")?;
        let mut numbers = vec![];
        while !self.take(")") {
            numbers.push(self.name().parse().map_err(|_| "its shape cannot be read")?);
            if !self.take(",") && !self.0.starts_with(')') {
                return Err("its shape cannot be read".into());
            }
        }
        Ok(numbers)
    }
}

#[cfg(test)]
mod tests {
    use super::*;

    fn matrix(n: usize, cells: &[f64]) -> Matrix {
        let cells = cells.to_vec();
        Matrix { n, cells }
    }

    #[test]
    fn cells_that_differ_from_their_mirror_are_counted() {
        let differing = |n: usize, cells: &[f64]| matrix(n, cells).differing();
        assert_eq!(differing(0, &[]), 0);
        assert_eq!(differing(1, &[f64::NAN]), 0);
        assert_eq!(differing(3, &[1.0, 2.0, 3.0, 2.0, 4.0, 5.0, 3.0, 5.0, 6.0]), 0);
        assert_eq!(differing(3, &[1.0, 2.0, 3.0, 2.0, 4.0, 5.0, 3.0, 7.0, 6.0]), 1);
        assert_eq!(differing(3, &[1.0, 2.0, 3.0, 4.0, 5.0, 6.0, 7.0, 8.0, 9.0]), 3);
        let other_nan = f64::from_bits(0xfff8_0000_0000_0001);
        assert_eq!(differing(2, &[0.0, f64::NAN, other_nan, 0.0]), 0);
        assert_eq!(differing(2, &[0.0, f64::NAN, 1.0, 0.0]), 1);
        assert_eq!(differing(2, &[1.0, 0.0, -0.0, 1.0]), 1);
        assert_eq!(differing(2, &[1.0, -0.0, -0.0, 1.0]), 0);
        assert_eq!(differing(2, &[1.0, 1.0, 1f64.next_up(), 1.0]), 1);
    }

    #[test]
    fn their_note_has_one_and_many() {
        let note = |last: f64| matrix(3, &[1.0, 2.0, 3.0, 2.0, 4.0, 5.0, last, 6.0, 7.0]).mirror_note();
        assert_eq!(
            note(3.0),
            "note: 1 cell below the diagonal differs from its mirror; compute the matrix anew\n"
        );
        assert_eq!(
            note(4.0),
            "note: 2 cells below the diagonal differ from their mirror; compute the matrix anew\n"
        );
        assert_eq!(Matrix::zeros(3).mirror_note(), "");
    }

    #[test]
    fn heads_are_as_numpy_writes_them() {
        let head = head("(289, 289)");
        assert_eq!(head.len(), 128);
        assert_eq!(&head[..10], b"\x93NUMPY\x01\x00\x76\x00");
        let text = std::str::from_utf8(&head[10..]).unwrap();
        assert!(text.starts_with("{'descr': '<f8', 'fortran_order': False, 'shape': (289, 289), }   "));
        assert!(text.ends_with(" \n"));
        assert_eq!(parse::<f64>(text), Ok(vec![289, 289]));
    }

    #[test]
    fn dictionaries_in_other_layouts() {
        let other = r#"{"shape":(2,3,),"fortran_order":False,"descr":"<f8"}"#;
        assert_eq!(parse::<f64>(other), Ok(vec![2, 3]));
        assert_eq!(
            parse::<f64>("{'descr': '<f8', 'fortran_order': False, 'shape': (7,), }"),
            Ok(vec![7])
        );
        assert_eq!(
            parse::<f64>("{'descr': '<f8', 'fortran_order': False, 'shape': ()}"),
            Ok(vec![])
        );
    }

    #[test]
    fn what_is_wrong_is_said() {
        let message = |text: &str| parse::<f64>(text).unwrap_err();
        assert_eq!(
            message("{'descr': '<f4', 'fortran_order': False, 'shape': (1, 1)}"),
            "its numbers are <f4, not <f8"
        );
        assert_eq!(
            message("{'descr': '<f8', 'fortran_order': True, 'shape': (1, 1)}"),
            "it is in Fortran order"
        );
        assert_eq!(
            message("{'descr': '<f8', 'fortran_order': False}"),
            "its header has no shape"
        );
        assert_eq!(
            message("{'descr': [('a', '<f8')], 'x': 1}"),
            "its numbers are of a compound type"
        );
        for text in [
            "",
            "{",
            "{'descr'",
            "{'descr': '<f8'",
            "{'shape': (1",
            "{'shape': (-1,)",
            "{'shape': (1 2)}",
        ] {
            assert!(parse::<f64>(text).is_err(), "{text}");
        }
        assert!(parse::<f64>("{'descr': '<f8', 'fortran_order': False, 'shape': (99999999999999999999, 1)}").is_err());
    }
}
