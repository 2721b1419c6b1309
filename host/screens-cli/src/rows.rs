//! Nodes and panels in rows of three: a NumPy file, or text with a row a line.
use crate::failure::Failure;
use crate::npy::{self, Number};
use crate::numbers::{self, Numbers};
use screens::Refusal;
use screens::mesh::{MAX_NODES, MAX_PANELS};
use std::path::Path;

/// Three columns of one length.
pub(crate) type Columns<T> = (Vec<T>, Vec<T>, Vec<T>);

/// What the rows of a file are.
struct Rows<T> {
    name: &'static str,
    number: &'static str,
    parse: fn(&str) -> Option<T>,
    most: usize,
}

const NODES: Rows<f64> = Rows {
    name: "nodes",
    number: "a number",
    parse: |word| word.parse().ok(),
    most: MAX_NODES,
};

const PANELS: Rows<i64> = Rows {
    name: "panels",
    number: "a whole number",
    parse: whole_number,
    most: MAX_PANELS,
};

/// Reads nodes, at most 4,096; more are refused with 11.
pub(crate) fn nodes(path: &Path) -> Result<Columns<f64>, Failure> {
    Ok(columns(&NODES.read(path)?, |x| x))
}

/// Reads panels, at most 8,192; more are refused with 11. An index below 0 becomes one that no mesh has, so that the library
/// says why.
pub(crate) fn panels(path: &Path) -> Result<Columns<usize>, Failure> {
    Ok(columns(&PANELS.read(path)?, |k| {
        usize::try_from(k).unwrap_or(usize::MAX)
    }))
}

/// A whole number of any size; one of more than 64 bits becomes -1, which is no node's either.
fn whole_number(word: &str) -> Option<i64> {
    let digits = word.strip_prefix(['+', '-']).unwrap_or(word);
    let is_one = !digits.is_empty() && digits.bytes().all(|byte| byte.is_ascii_digit());
    is_one.then(|| word.parse().unwrap_or(-1))
}

fn columns<S: Copy, T>(rows: &[[S; 3]], number: fn(S) -> T) -> Columns<T> {
    let column = |c: usize| rows.iter().map(|row| number(row[c])).collect();
    (column(0), column(1), column(2))
}

impl<T: Number> Rows<T> {
    fn read(&self, path: &Path) -> Result<Vec<[T; 3]>, Failure> {
        match numbers::read(path)? {
            Numbers::Npy(bytes) => npy::read_rows(&mut &bytes[..], path, self.most),
            Numbers::Text(text, complete) => {
                let rows = self.in_text(&text, path)?;
                if complete {
                    Ok(rows)
                } else {
                    Err(numbers::too_long(path, self.name))
                }
            }
        }
    }

    /// The rows of a text. What stands behind one row too many is not looked at.
    fn in_text(&self, text: &str, path: &Path) -> Result<Vec<[T; 3]>, Failure> {
        let mut rows = vec![];
        for (line, words) in numbers::lines(text) {
            if rows.len() == self.most {
                return Err(Failure::refused(path, Refusal::TooLarge));
            }
            let row = self.row(&words);
            rows.push(row.map_err(|what| Failure::file(path, format!("line {line}: {what}")))?);
        }
        Ok(rows)
    }

    fn row(&self, words: &[&str]) -> Result<[T; 3], String> {
        let number = |word: &&str| (self.parse)(word).ok_or_else(|| format!("{word} is not {}", self.number));
        let numbers: Vec<T> = words.iter().map(number).collect::<Result<_, _>>()?;
        let count = numbers.len();
        numbers
            .try_into()
            .map_err(|_| format!("three numbers are due, not {count}"))
    }
}

#[cfg(test)]
mod tests {
    use super::*;

    fn message<T: Number>(rows: &Rows<T>, text: &str) -> String {
        rows.in_text(text, Path::new("f")).err().unwrap().to_string()
    }

    #[test]
    fn rows_with_remarks() {
        let read = |text: &str| NODES.in_text(text, Path::new("f")).unwrap();
        assert_eq!(read(""), [[0.0; 3]; 0]);
        assert_eq!(
            read("# x y z\n\n1 2 3 # first\n \t-4e-1 +5. .5\r\n"),
            [[1.0, 2.0, 3.0], [-0.4, 5.0, 0.5]]
        );
        assert!(read("inf NaN -1e999").as_flattened().iter().all(|x| !x.is_finite()));
    }

    #[test]
    fn whole_numbers_of_any_size() {
        let words = ["0", "-0", "+7", "4095", "9223372036854775807", "-3"];
        assert_eq!(words.map(whole_number), [0, 0, 7, 4095, i64::MAX, -3].map(Some));
        for word in [
            "9223372036854775808",
            "-9223372036854775809",
            "99999999999999999999999999",
        ] {
            assert_eq!(whole_number(word), Some(-1), "{word}");
        }
        for word in ["", "-", "+", "1.0", "1e0", "0x1", "1_0", "--1", "99999999999999999999x"] {
            assert_eq!(whole_number(word), None, "{word}");
        }
    }

    #[test]
    fn what_is_wrong_is_said() {
        assert_eq!(message(&NODES, "0 0 0\n1 2"), "f: line 2: three numbers are due, not 2");
        assert_eq!(
            message(&NODES, "\n1 2 3 4\n"),
            "f: line 2: three numbers are due, not 4"
        );
        assert_eq!(message(&NODES, "0,0,0"), "f: line 1: 0,0,0 is not a number");
        assert_eq!(message(&PANELS, "# a\n0 1 2.0"), "f: line 2: 2.0 is not a whole number");
        let many = message(&NODES, &"0 0 0\n".repeat(4097));
        assert!(many.starts_with("f: refused, number 11 (too large)"), "{many}");
        assert_eq!(
            NODES.in_text(&"0 0 0\n".repeat(4096), Path::new("f")).unwrap().len(),
            4096
        );
    }
}
