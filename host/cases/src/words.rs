//! Reading and collecting words.
use crate::{Mesh, Name, Store, Triangle, canonical};

/// Reads the words of an input in order.
pub struct In<'a> {
    words: &'a [u64],
    at: usize,
}

impl<'a> In<'a> {
    /// From the first word.
    pub fn new(words: &'a [u64]) -> Self {
        In { words, at: 0 }
    }
    /// The next word.
    pub fn word(&mut self) -> u64 {
        self.at += 1;
        self.words[self.at - 1]
    }
    /// The next word as a length or an index.
    pub fn size(&mut self) -> usize {
        self.word() as usize
    }
    /// The next word as a number.
    pub fn number(&mut self) -> f64 {
        f64::from_bits(self.word())
    }
    /// Three numbers.
    pub fn vector(&mut self) -> [f64; 3] {
        std::array::from_fn(|_| self.number())
    }
    /// Nine numbers, corner after corner.
    pub fn triangle(&mut self) -> Triangle {
        std::array::from_fn(|_| self.vector())
    }
    /// A length, then that many numbers.
    pub fn numbers(&mut self) -> Vec<f64> {
        let n = self.size();
        (0..n).map(|_| self.number()).collect()
    }
    /// A length, then that many whole numbers.
    pub fn sizes(&mut self) -> Vec<usize> {
        let n = self.size();
        (0..n).map(|_| self.size()).collect()
    }
    /// Output lengths: as many words as asked, with no length before them.
    pub fn lengths<const N: usize>(&mut self) -> [usize; N] {
        std::array::from_fn(|_| self.size())
    }
    /// A length in bytes, then the bytes, eight to a word.
    pub fn bytes(&mut self) -> Vec<u8> {
        let n = self.size();
        let words = (0..n.div_ceil(8)).map(|_| self.word());
        let mut bytes: Vec<u8> = words.flat_map(u64::to_le_bytes).collect();
        bytes.truncate(n);
        bytes
    }
    /// Six columns.
    pub fn mesh(&mut self) -> Mesh {
        Mesh {
            x: self.numbers(),
            y: self.numbers(),
            z: self.numbers(),
            a: self.sizes(),
            b: self.sizes(),
            c: self.sizes(),
        }
    }
    /// Marks, names and three columns.
    pub fn store(&mut self) -> Store {
        Store {
            marks: self.bytes(),
            names: self.bytes(),
            x: self.numbers(),
            y: self.numbers(),
            z: self.numbers(),
        }
    }
    /// The name of a shape: eight bytes, the first one lowest.
    pub fn name(&mut self) -> Name {
        self.word().to_le_bytes()
    }
}

/// Collects words in order: inputs with the bits that they have, results with one NaN.
#[derive(Default)]
pub struct Out(pub Vec<u64>);

impl Out {
    /// One word.
    pub fn word(mut self, word: u64) -> Self {
        self.0.push(word);
        self
    }
    /// A length or an index.
    pub fn size(self, n: usize) -> Self {
        self.word(n as u64)
    }
    /// Lengths, with no length before them.
    pub fn lengths(mut self, lengths: &[usize]) -> Self {
        self.0.extend(lengths.iter().map(|&n| n as u64));
        self
    }
    /// A number with the bits that it has.
    pub fn number(self, x: f64) -> Self {
        self.word(x.to_bits())
    }
    /// Numbers with the bits that they have.
    pub fn bits(mut self, xs: &[f64]) -> Self {
        self.0.extend(xs.iter().map(|x| x.to_bits()));
        self
    }
    /// Nine numbers.
    pub fn triangle(self, t: Triangle) -> Self {
        self.bits(t.as_flattened())
    }
    /// A length and numbers.
    pub fn numbers(self, xs: &[f64]) -> Self {
        self.size(xs.len()).bits(xs)
    }
    /// A length and whole numbers.
    pub fn sizes(self, ns: &[usize]) -> Self {
        self.size(ns.len()).lengths(ns)
    }
    /// A length in bytes and the bytes, eight to a word.
    pub fn bytes(mut self, bytes: &[u8]) -> Self {
        self = self.size(bytes.len());
        for part in bytes.chunks(8) {
            let mut word = [0; 8];
            word[..part.len()].copy_from_slice(part);
            self = self.word(u64::from_le_bytes(word));
        }
        self
    }
    /// Six columns.
    pub fn mesh(self, m: &Mesh) -> Self {
        let nodes = self.numbers(&m.x).numbers(&m.y).numbers(&m.z);
        nodes.sizes(&m.a).sizes(&m.b).sizes(&m.c)
    }
    /// Marks, names and three columns.
    pub fn store(self, s: &Store) -> Self {
        let bytes = self.bytes(&s.marks).bytes(&s.names);
        bytes.numbers(&s.x).numbers(&s.y).numbers(&s.z)
    }
    /// The name of a shape: eight bytes, the first one lowest.
    pub fn name(self, name: Name) -> Self {
        self.word(u64::from_le_bytes(name))
    }
    /// Six columns as results, with no lengths before them.
    pub fn columns(self, m: &Mesh) -> Self {
        let nodes = self.results(&m.x).results(&m.y).results(&m.z);
        nodes.lengths(&m.a).lengths(&m.b).lengths(&m.c)
    }
    /// A result.
    pub fn result(self, x: f64) -> Self {
        self.word(canonical(x))
    }
    /// Results.
    pub fn results(mut self, xs: &[f64]) -> Self {
        self.0.extend(xs.iter().map(|&x| canonical(x)));
        self
    }
    /// Done and a value, or the refusal's number and zero.
    pub fn value(self, answer: Result<f64, u32>) -> Self {
        match answer {
            Ok(x) => self.word(0).result(x),
            Err(number) => self.refusal(number, 1),
        }
    }
    /// Done and what `filled` appends, or the refusal's number alone.
    pub fn buffers<T>(self, answer: Result<T, u32>, filled: impl FnOnce(Self, T) -> Self) -> Self {
        match answer {
            Ok(x) => filled(self.word(0), x),
            Err(number) => self.refusal(number, 0),
        }
    }
    /// The refusal's number and zeros.
    pub fn refusal(mut self, number: u32, zeros: usize) -> Self {
        self = self.word(number as u64);
        self.0.extend(std::iter::repeat_n(0, zeros));
        self
    }
}

#[cfg(test)]
mod tests {
    use super::*;

    #[test]
    fn what_is_collected_is_read() {
        let t = [[1.0, 2.0, 3.0], [4.0, -0.0, 6.0], [f64::NAN, 8.0, 9.0]];
        let mesh = Mesh::of_panel(t);
        for bytes in [&b""[..], b"1234567", b"12345678", b"123456789"] {
            let words = Out::default()
                .word(7)
                .triangle(t)
                .numbers(&[0.5])
                .bytes(bytes)
                .mesh(&mesh)
                .lengths(&[3, 4])
                .0;
            let mut i = In::new(&words);
            assert_eq!(i.word(), 7);
            assert_eq!(i.triangle().as_flattened().map_bits(), t.as_flattened().map_bits());
            assert_eq!(i.numbers(), [0.5]);
            assert_eq!(i.bytes(), bytes);
            let read = i.mesh();
            assert_eq!(
                (read.y, read.a, read.c),
                (mesh.y.clone(), mesh.a.clone(), mesh.c.clone())
            );
            assert_eq!(i.lengths(), [3, 4]);
        }
    }

    #[test]
    fn a_store_and_a_name_are_read_as_collected() {
        let store = Store {
            marks: vec![0, 1, 7, 255, 0, 0, 0, 1],
            names: (1..=64).collect(),
            x: vec![1.0, -0.0],
            y: vec![],
            z: vec![3.0],
        };
        let words = Out::default().store(&store).name(*b"as cast\0").0;
        assert_eq!(words[..2], [8, 0x0100_0000_ff07_0100]);
        assert_eq!(words.last(), Some(&0x0074_7361_6320_7361));
        let mut i = In::new(&words);
        let read = i.store();
        assert_eq!((read.marks, read.names), (store.marks, store.names));
        assert_eq!(
            [read.x, read.y, read.z].map(|c| c.map_bits()),
            [store.x, store.y, store.z].map(|c| c.map_bits())
        );
        assert_eq!(&i.name(), b"as cast\0");
    }

    #[test]
    fn every_nan_of_a_result_is_one_number() {
        let (nan, one) = (0x7ff8_0000_0000_0000, 1f64.to_bits());
        let words = Out::default()
            .result(-f64::NAN)
            .results(&[f64::from_bits(0x7ff0_0000_0000_0001), 1.0])
            .0;
        assert_eq!(words, [nan, nan, one]);
        let words = Out::default().columns(&Mesh::of_panel([[1.0, -f64::NAN, 1.0]; 3])).0;
        assert_eq!(words, [one, one, one, nan, nan, nan, one, one, one, 0, 1, 2]);
    }

    trait Bits {
        fn map_bits(&self) -> Vec<u64>;
    }

    impl Bits for [f64] {
        fn map_bits(&self) -> Vec<u64> {
            self.iter().map(|x| x.to_bits()).collect()
        }
    }
}
