//! What is lent to a call: a buffer filled with a pattern, with pattern words before and behind it that no call may write.
use cases::Out;
use screens::Refusal;
use std::hint::black_box;

const GUARD: usize = 4;
/// Appended to the results, which then differ from the oracle's: what the call did that it must not do.
const WROTE_OUTSIDE: u64 = 0x0ff5_1de0_0ff5_1de0;
const WROTE_ON_REFUSAL: u64 = 0xdead_beef_dead_beef;
const WROTE_WHAT_IS_READ: u64 = 0x0c0d_e0f0_0c0d_e0f0;

/// A number of 64 bits, or a byte.
pub(crate) trait Number: Copy {
    fn of_bits(bits: u64) -> Self;
    fn bits(self) -> u64;
    /// Appends what a call left as results.
    fn results(o: Out, left: &[Self]) -> Out;
}

impl Number for f64 {
    fn of_bits(bits: u64) -> Self {
        f64::from_bits(bits)
    }
    fn bits(self) -> u64 {
        self.to_bits()
    }
    fn results(o: Out, left: &[Self]) -> Out {
        o.results(left)
    }
}

impl Number for usize {
    fn of_bits(bits: u64) -> Self {
        bits as usize
    }
    fn bits(self) -> u64 {
        self as u64
    }
    fn results(o: Out, left: &[Self]) -> Out {
        o.lengths(left)
    }
}

impl Number for u8 {
    /// Both halves' lowest bytes, so that guards and contents have patterns of their own here too.
    fn of_bits(bits: u64) -> Self {
        (bits >> 32 ^ bits) as u8
    }
    fn bits(self) -> u64 {
        self.into()
    }
    fn results(o: Out, left: &[Self]) -> Out {
        o.bytes(left)
    }
}

/// Guards, what is lent, guards; and the whole as it was.
pub(crate) struct Lent<T> {
    words: Vec<T>,
    before: Vec<u64>,
}

impl<T: Number> Lent<T> {
    /// A buffer of any contents.
    pub(crate) fn holding(contents: &[T]) -> Self {
        let pattern = |i: usize| T::of_bits(0x5ca1_ab1e_0000_0000 + i as u64);
        let end = GUARD + contents.len();
        let guards = |range: std::ops::Range<usize>| range.map(pattern);
        let words: Vec<T> = guards(0..GUARD)
            .chain(contents.iter().copied())
            .chain(guards(end..end + GUARD))
            .collect();
        let before = words.iter().map(|word| word.bits()).collect();
        Lent { words, before }
    }

    /// A buffer to be filled.
    pub(crate) fn new(length: usize) -> Self {
        let pattern = |i: usize| T::of_bits(0x0b5e_55ed_0000_0000 + i as u64);
        Lent::holding(&(0..length).map(pattern).collect::<Vec<T>>())
    }

    /// What a call is lent.
    pub(crate) fn lend(&mut self) -> &mut [T] {
        let end = self.words.len() - GUARD;
        &mut self.words[GUARD..end]
    }

    /// What a call left, or is lent to read.
    pub(crate) fn left(&self) -> &[T] {
        &self.words[GUARD..self.words.len() - GUARD]
    }

    fn same(&self, mut range: std::ops::Range<usize>) -> bool {
        // the compiler may take for granted that what a call only reads is as it was
        let words = black_box(&self.words);
        range.all(|i| words[i].bits() == self.before[i])
    }
}

/// A lent buffer of any type.
pub(crate) trait Buffer {
    fn results(&self, o: Out) -> Out;
    fn guards_hold(&self) -> bool;
    fn untouched(&self) -> bool;
}

impl<T: Number> Buffer for Lent<T> {
    fn results(&self, o: Out) -> Out {
        T::results(o, self.left())
    }
    fn guards_hold(&self) -> bool {
        self.same(0..GUARD) && self.same(self.words.len() - GUARD..self.words.len())
    }
    fn untouched(&self) -> bool {
        self.same(0..self.words.len())
    }
}

/// Columns, one behind the other.
impl<T: Number, const N: usize> Buffer for [Lent<T>; N] {
    fn results(&self, o: Out) -> Out {
        self.iter().fold(o, |o, column| column.results(o))
    }
    fn guards_hold(&self) -> bool {
        self.iter().all(Buffer::guards_hold)
    }
    fn untouched(&self) -> bool {
        self.iter().all(Buffer::untouched)
    }
}

/// What a call answered that fills buffers: done and their contents, or the refusal's number. On a refusal every buffer must be
/// as it was.
pub(crate) fn written(o: Out, answer: Result<(), Refusal>, buffers: &[&dyn Buffer]) -> Out {
    counted(o, answer.map(|()| None), 0, buffers)
}

/// The same with words that follow the number: `zeros` zeros on a refusal.
pub(crate) fn counted(
    o: Out,
    answer: Result<impl IntoIterator<Item = u64>, Refusal>,
    zeros: usize,
    buffers: &[&dyn Buffer],
) -> Out {
    let mut o = match answer {
        Ok(words) => {
            let mut o = o.word(0);
            o.0.extend(words);
            buffers.iter().fold(o, |o, buffer| buffer.results(o))
        }
        Err(refusal) => {
            let o = o.refusal(refusal.number(), zeros);
            let touched = buffers.iter().any(|buffer| !buffer.untouched());
            if touched { o.word(WROTE_ON_REFUSAL) } else { o }
        }
    };
    if !buffers.iter().all(|buffer| buffer.guards_hold()) {
        o = o.word(WROTE_OUTSIDE);
    }
    o
}

/// Appends a word unless every buffer is as it was, guards and all: what a call is lent to read it must not write.
pub(crate) fn only_read(o: Out, buffers: &[&dyn Buffer]) -> Out {
    let kept = buffers.iter().all(|buffer| buffer.untouched());
    if kept { o } else { o.word(WROTE_WHAT_IS_READ) }
}

#[cfg(test)]
mod tests {
    use super::*;

    #[test]
    fn what_a_call_leaves_is_its_answer() {
        let mut out = Lent::<f64>::new(2);
        out.lend().copy_from_slice(&[1.0, f64::NAN]);
        assert_eq!(
            written(Out::default(), Ok(()), &[&out]).0,
            [0, 1f64.to_bits(), 0x7ff8_0000_0000_0000]
        );
        let mut file = Lent::<u8>::new(9);
        file.lend().copy_from_slice(b"PNL\x01\0\0\0\0\x7f");
        assert_eq!(
            written(Out::default(), Ok(()), &[&file]).0,
            [0, 9, 0x0000_0000_014c_4e50, 0x7f]
        );
        let untouched = Lent::<usize>::new(3);
        assert_eq!(written(Out::default(), Err(Refusal::Output), &[&untouched]).0, [6]);
        assert_eq!(
            counted(Out::default(), Err::<[u64; 1], _>(Refusal::Map), 1, &[]).0,
            [9, 0]
        );
    }

    #[test]
    fn writing_on_a_refusal_is_seen() {
        let (mut out, mut file) = (Lent::new(2), Lent::new(2));
        (out.lend()[1], file.lend()[1]) = (0.0, b'P');
        let touched: [&dyn Buffer; 2] = [&out, &file];
        for buffer in touched {
            let answer = written(Out::default(), Err(Refusal::Output), &[buffer]).0;
            assert_eq!(answer, [6, WROTE_ON_REFUSAL]);
        }
    }

    #[test]
    fn writing_outside_is_seen() {
        for place in [GUARD - 1, GUARD + 2] {
            let (mut out, mut file) = (Lent::new(2), Lent::new(2));
            (out.words[place], file.words[place]) = (0usize, 0u8);
            let touched: [&dyn Buffer; 2] = [&out, &file];
            for buffer in touched {
                let answer = written(Out::default(), Ok(()), &[buffer]).0;
                assert_eq!(answer.last(), Some(&WROTE_OUTSIDE));
            }
        }
    }

    #[test]
    fn writing_what_is_read_is_seen() {
        for place in [0, GUARD, GUARD + 2] {
            let (mut names, mut columns) = (
                Lent::holding(&[7u8, 8]),
                [[1.0, 2.0]; 3].map(|column| Lent::holding(&column)),
            );
            assert_eq!(only_read(Out::default().word(0), &[&names, &columns]).0, [0]);
            names.words[place] ^= 1;
            columns[2].words[place] = -0.5;
            let touched: [&dyn Buffer; 2] = [&names, &columns];
            for buffer in touched {
                assert_eq!(only_read(Out::default().word(0), &[buffer]).0, [0, WROTE_WHAT_IS_READ]);
            }
        }
    }

    #[test]
    fn columns_are_results_one_behind_the_other() {
        let mut columns = [1.0, 2.0].map(|x| Lent::holding(&[x]));
        assert_eq!(
            written(Out::default(), Ok(()), &[&columns]).0,
            [0, 1f64.to_bits(), 2f64.to_bits()]
        );
        columns[1].lend()[0] = 3.0;
        assert_eq!(
            written(Out::default(), Err(Refusal::Output), &[&columns]).0,
            [6, WROTE_ON_REFUSAL]
        );
        columns[0].words[0] = 0.0;
        assert_eq!(
            written(Out::default(), Ok(()), &[&columns]).0.last(),
            Some(&WROTE_OUTSIDE)
        );
    }
}
