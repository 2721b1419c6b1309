//! The case file (FORMAT.md): 8 bytes of mark, then records of 64-bit words.
use std::io::{Result, Write};

const MARK: &[u8; 8] = b"ORCASES1";

/// Begins a case file.
pub fn write_mark(file: &mut impl Write) -> Result<()> {
    file.write_all(MARK)
}

/// Writes a record.
pub fn write(file: &mut impl Write, kind: u32, input: &[u64], results: &[u64]) -> Result<()> {
    let head = [kind as u64 | (input.len() as u64) << 32, results.len() as u64];
    for word in head.iter().chain(input).chain(results) {
        file.write_all(&word.to_le_bytes())?;
    }
    Ok(())
}

/// Calls `each` with kind, input and results of every record.
pub fn read(bytes: &[u8], mut each: impl FnMut(u32, &[u64], &[u64])) {
    assert_eq!(&bytes[..8], MARK, "not a case file");
    let words: Vec<u64> = bytes[8..]
        .as_chunks::<8>()
        .0
        .iter()
        .map(|word| u64::from_le_bytes(*word))
        .collect();
    let mut at = 0;
    while at < words.len() {
        let (kind, inputs) = (words[at] as u32, (words[at] >> 32) as usize);
        let results = words[at + 1] as usize;
        let (input, rest) = words[at + 2..].split_at(inputs);
        each(kind, input, &rest[..results]);
        at += 2 + inputs + results;
    }
}

#[cfg(test)]
mod tests {
    use super::*;

    #[test]
    fn records_are_read_as_written() {
        let records: [(u32, &[u64], &[u64]); 3] = [(1, &[1, 2, 3], &[4]), (57, &[], &[]), (30, &[9], &[8, 7])];
        let mut bytes = vec![];
        write_mark(&mut bytes).unwrap();
        for (kind, input, results) in records {
            write(&mut bytes, kind, input, results).unwrap();
        }
        let mut found = vec![];
        read(&bytes, |kind, input, results| {
            found.push((kind, input.to_vec(), results.to_vec()))
        });
        assert_eq!(
            found,
            records.map(|(kind, input, results)| (kind, input.to_vec(), results.to_vec()))
        );
    }
}
