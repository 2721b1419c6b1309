//! Command-line words: places in order, and options that take so many words.
use crate::failure::Failure;
use std::ffi::{OsStr, OsString};
use std::path::PathBuf;
use std::str::FromStr;

/// The words of a command, taken apart.
pub(crate) struct Args {
    places: std::vec::IntoIter<OsString>,
    options: Vec<(&'static str, Vec<OsString>)>,
}

impl Args {
    /// Takes words apart by a table of options and how many words each takes.
    pub(crate) fn new(words: Vec<OsString>, table: &[(&'static str, usize)]) -> Result<Self, Failure> {
        let (mut places, mut options) = (vec![], vec![]);
        let mut words = words.into_iter();
        while let Some(word) = words.next() {
            let Some(&(name, count)) = table.iter().find(|(name, _)| word == *name) else {
                if is_option(&word) {
                    return Err(Failure::usage(format!("no such option: {}", word.display())));
                }
                places.push(word);
                continue;
            };
            if options.iter().any(|(given, _)| *given == name) {
                return Err(Failure::usage(format!("{name} is given twice")));
            }
            // A negative number begins with - too, so only the names of options end the words.
            let values: Vec<OsString> = words.by_ref().take(count).collect();
            let cut = values.iter().any(|value| table.iter().any(|(name, _)| value == name));
            if values.len() < count || cut {
                return Err(Failure::usage(format!("{name} takes {count} {}", plural(count))));
            }
            options.push((name, values));
        }
        Ok(Args {
            places: places.into_iter(),
            options,
        })
    }

    /// The next place.
    pub(crate) fn place(&mut self, what: &str) -> Result<OsString, Failure> {
        self.places
            .next()
            .ok_or_else(|| Failure::usage(format!("{what} is missing")))
    }

    /// The next place, a file.
    pub(crate) fn path(&mut self, what: &str) -> Result<PathBuf, Failure> {
        self.place(what).map(PathBuf::from)
    }

    /// The next place, a file, if there is one.
    pub(crate) fn next_path(&mut self) -> Option<PathBuf> {
        self.places.next().map(PathBuf::from)
    }

    /// That no place is left.
    pub(crate) fn end(&mut self) -> Result<(), Failure> {
        match self.places.next() {
            None => Ok(()),
            Some(word) => Err(Failure::usage(format!("one word too many: {}", word.display()))),
        }
    }

    /// The words of an option, if it is given.
    pub(crate) fn option(&mut self, name: &str) -> Option<Vec<OsString>> {
        let at = self.options.iter().position(|(given, _)| *given == name)?;
        Some(self.options.swap_remove(at).1)
    }

    /// An option's one word, a file.
    pub(crate) fn option_path(&mut self, name: &str) -> Option<PathBuf> {
        self.option(name)?.pop().map(PathBuf::from)
    }

    /// The words of an option that has to be given.
    pub(crate) fn needed(&mut self, name: &str) -> Result<Vec<OsString>, Failure> {
        self.option(name)
            .ok_or_else(|| Failure::usage(format!("{name} is missing")))
    }

    /// The one word of an option that has to be given.
    pub(crate) fn needed_word(&mut self, name: &str) -> Result<OsString, Failure> {
        Ok(self.needed(name)?.remove(0))
    }

    /// The output file of `-o`, which has to be given.
    pub(crate) fn output(&mut self) -> Result<PathBuf, Failure> {
        self.needed_word("-o").map(PathBuf::from)
    }
}

/// The words of an option begin with a minus and a letter, or with two.
fn is_option(word: &OsStr) -> bool {
    let bytes = word.as_encoded_bytes();
    bytes.len() > 1 && bytes[0] == b'-' && (bytes[1] == b'-' || bytes[1].is_ascii_alphabetic())
}

fn plural(count: usize) -> &'static str {
    if count == 1 { "word" } else { "words" }
}

/// A number of a given sort; `what` names it where it is none.
pub(crate) fn number<T: FromStr>(word: &OsStr, what: &str) -> Result<T, Failure> {
    let text = word.to_str().unwrap_or_default();
    text.parse()
        .map_err(|_| Failure::usage(format!("{what}: {} is not a number of that sort", word.display())))
}

#[cfg(test)]
mod tests {
    use super::*;

    fn args(words: &[&str]) -> Result<Args, Failure> {
        let words = words.iter().map(OsString::from).collect();
        Args::new(words, &[("--to", 3), ("-o", 1)])
    }

    #[test]
    fn places_and_options_in_any_order() {
        let mut a = args(&["m.pnl", "--to", "-1", "2", "-inf", "n.npy", "-o", "-out"]).unwrap();
        assert_eq!(a.path("").unwrap(), PathBuf::from("m.pnl"));
        assert_eq!(a.place("").unwrap(), "n.npy");
        assert_eq!(a.option("--to").unwrap(), ["-1", "2", "-inf"]);
        assert_eq!(a.output().unwrap(), PathBuf::from("-out"));
        a.end().unwrap();
    }

    #[test]
    fn what_is_wrong_is_said() {
        let message = |words: &[&str]| args(words).err().unwrap().to_string();
        assert_eq!(message(&["--two", "1"]), "no such option: --two");
        assert_eq!(message(&["--to", "1", "2"]), "--to takes 3 words");
        assert_eq!(message(&["--to", "1", "2", "-o", "x"]), "--to takes 3 words");
        assert_eq!(message(&["-o", "a", "-o", "b"]), "-o is given twice");
        let mut one = args(&["a", "b"]).unwrap();
        one.place("FILE").unwrap();
        assert_eq!(one.end().unwrap_err().to_string(), "one word too many: b");
        assert_eq!(args(&[]).unwrap().output().unwrap_err().to_string(), "-o is missing");
    }
}
