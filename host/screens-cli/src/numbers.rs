//! Files of numbers: NumPy's format, or text with the numbers parted by spaces or lines and remarks behind #.
use crate::failure::Failure;
use crate::{files, npy};
use std::path::Path;

/// The most bytes that are read: far more than 8,192 panels need.
const MOST: u64 = 1 << 22;

/// What a file of numbers holds, as far as it is read.
pub(crate) enum Numbers {
    /// The bytes of a NumPy file.
    Npy(Vec<u8>),
    /// A text, and whether it is complete.
    Text(String, bool),
}

/// Reads a file of numbers; of a text that is too long its first lines.
pub(crate) fn read(path: &Path) -> Result<Numbers, Failure> {
    let mut bytes = files::read_at_most(&mut files::open(path)?, path, MOST + 1)?;
    if npy::is_npy(&bytes) {
        return Ok(Numbers::Npy(bytes));
    }
    let complete = bytes.len() as u64 <= MOST;
    if !complete {
        let end = bytes.iter().rposition(|byte| *byte == b'\n');
        bytes.truncate(end.unwrap_or(0));
    }
    let text = String::from_utf8(bytes).map_err(|_| Failure::file(path, "neither a NumPy file nor text"))?;
    Ok(Numbers::Text(text, complete))
}

/// The words of each line that has some, without remarks, behind the line's number.
pub(crate) fn lines(text: &str) -> impl Iterator<Item = (usize, Vec<&str>)> {
    let numbered = text.lines().enumerate().map(|(i, line)| (i + 1, words(line)));
    numbered.filter(|(_, words)| !words.is_empty())
}

fn words(line: &str) -> Vec<&str> {
    line.split('#').next().unwrap_or_default().split_whitespace().collect()
}

/// That a text is too long for what it is to hold.
pub(crate) fn too_long(path: &Path, what: &str) -> Failure {
    Failure::file(path, format!("too long for {what}"))
}
