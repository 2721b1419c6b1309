//! Document 01's refusals, and how an answer of the static library becomes a `Result`.
use std::fmt;

/// Why a call was refused: document 01's number, the trade's word for it and a sentence that says what to look at.
///
/// After a refusal every buffer that was lent is as it was.
///
/// ```
/// use screens::{Refusal, TriangleMeshView};
///
/// let (x, y, z) = ([0.0, 1.0, 0.0], [0.0, 0.0, 1.0], [0.0; 3]);
/// let refused = TriangleMeshView::new((&x, &y, &z), (&[0], &[1], &[3])).unwrap_err();
/// assert_eq!(refused, Refusal::MissingNode);
/// assert_eq!((refused.number(), refused.word()), (3, "missing node"));
/// assert_eq!(
///     refused.to_string(),
///     "3 (missing node): a panel names a node that is not below the node count; look at the panels' indices"
/// );
/// ```
///
/// Where the surrounding code returns texts, as the original's callers do, `?` turns a refusal into its sentence:
///
/// ```
/// # use screens::display;
/// fn shown(henries: f64) -> Result<i64, &'static str> {
///     Ok(display(henries)?)
/// }
/// assert!(shown(f64::NAN).unwrap_err().starts_with("a value is not finite"));
/// ```
#[derive(Clone, Copy, Debug, PartialEq, Eq, PartialOrd, Ord, Hash)]
#[repr(u32)]
pub enum Refusal {
    /// 1: the three coordinate columns differ in length.
    NodeColumns = 1,
    /// 2: the three index columns differ in length.
    PanelColumns = 2,
    /// 3: an index is not below the node count.
    MissingNode = 3,
    /// 4: a panel's area is below 1e-14 m².
    ZeroArea = 4,
    /// 5: nodal lengths differ from the node count or from each other.
    NodalValues = 5,
    /// 6: an output's length is not the one due (also that of a store of shapes, or of a matrix to be moved).
    Output = 6,
    /// 7: the length of a given matrix is not n × n.
    Matrix = 7,
    /// 8: there are no sources, but the map, the output or the nodal values are not empty.
    Coefficients = 8,
    /// 9: the map's length is not a multiple of the source count.
    Map = 9,
    /// 10: the output's or the nodal values' length is not the map's length / sources.
    Flux = 10,
    /// 11: more than 4,096 nodes, 8,192 panels or 4,096 nodal values against a matrix.
    TooLarge = 11,
    /// 12: a quadrature number outside 1 to 5, or a corner above 2.
    NoSuchChoice = 12,
    /// 13: the named node is not below the count.
    NoSuchNode = 13,
    /// 14: a panel file is under 9 bytes, or its mark or version is wrong.
    Mark = 14,
    /// 15: a panel file's length is not the one that its counts give.
    FileLength = 15,
    /// 16: a value to be shown is not finite, or its rounded size is above 10^15 nanohenries.
    Display = 16,
    /// 17: no held place of the store of shapes has the name.
    UnknownName = 17,
    /// 18: the name is new, and all eight places of the store of shapes are held.
    NoPlace = 18,
}

use Refusal::*;

impl Refusal {
    /// Every refusal, in the order of its number.
    pub const ALL: [Refusal; 18] = [
        NodeColumns,
        PanelColumns,
        MissingNode,
        ZeroArea,
        NodalValues,
        Output,
        Matrix,
        Coefficients,
        Map,
        Flux,
        TooLarge,
        NoSuchChoice,
        NoSuchNode,
        Mark,
        FileLength,
        Display,
        UnknownName,
        NoPlace,
    ];

    /// The refusal of a number from 1 to 18.
    pub fn from_number(number: u32) -> Option<Refusal> {
        Refusal::ALL.into_iter().find(|refusal| refusal.number() == number)
    }

    /// Document 01's number, from 1 to 18.
    pub fn number(self) -> u32 {
        self as u32
    }

    /// The trade's word.
    pub fn word(self) -> &'static str {
        match self {
            NodeColumns => "node columns",
            PanelColumns => "panel columns",
            MissingNode => "missing node",
            ZeroArea => "zero area",
            NodalValues => "nodal values",
            Output => "output",
            Matrix => "matrix",
            Coefficients => "coefficients",
            Map => "map",
            Flux => "flux",
            TooLarge => "too large",
            NoSuchChoice => "no such choice",
            NoSuchNode => "no such node",
            Mark => "mark",
            FileLength => "file length",
            Display => "display",
            UnknownName => "unknown name",
            NoPlace => "no place",
        }
    }

    /// What is wrong and what to look at.
    pub fn sentence(self) -> &'static str {
        match self {
            NodeColumns => "the columns x, y and z differ in length; give each one number a node",
            PanelColumns => "the three index columns differ in length; give each one index a panel",
            MissingNode => "a panel names a node that is not below the node count; look at the panels' indices",
            ZeroArea => {
                "a panel's area is below 1e-14 square metres; look for panels with a repeated or collinear corner, and at the unit, which is metres"
            }
            NodalValues => {
                "there must be one nodal value a node, and as many source as target values; look at the lengths"
            }
            Output => {
                "a buffer does not have the length due; n nodes need a matrix of n × n cells and a store of 8 marks, 64 bytes of \
                 names and three columns of 8n numbers, with p panels a file of 9 + 24n + 6p bytes"
            }
            Matrix => {
                "the matrix does not have n × n cells for n nodal values or nodes; look whether it is of another mesh"
            }
            Coefficients => {
                "there are no source coefficients, but the map, the output or the nodal values are not empty"
            }
            Map => "the map's length is not a multiple of the number of sources; look at the count of coefficients",
            Flux => "the output or the nodal values must have one number a row of the map; look at the lengths",
            TooLarge => "the limit is 4,096 nodes, 8,192 panels and 4,096 nodal values; use a coarser mesh",
            NoSuchChoice => "a quadrature rule is a number from 1 to 5, a corner from 0 to 2",
            NoSuchNode => "the named node is not below the node count; nodes are counted from 0",
            Mark => {
                "this is not a panel file of version 1; it must begin with the bytes PNL, 1, 0 and have two counts behind them"
            }
            FileLength => {
                "the file's length is not the one that its counts give; look whether it was cut or something stands behind it"
            }
            Display => {
                "a value is not finite or above a million henries, and has no display in whole nanohenries; look at the panels it comes from"
            }
            UnknownName => "no held place of the store has that name; look at the names that it holds",
            NoPlace => {
                "all eight places of the store are held, and none by that name; drop a shape first, or save under a held name"
            }
        }
    }
}

impl fmt::Display for Refusal {
    fn fmt(&self, f: &mut fmt::Formatter<'_>) -> fmt::Result {
        write!(f, "{} ({}): {}", self.number(), self.word(), self.sentence())
    }
}

impl std::error::Error for Refusal {}

impl From<Refusal> for &'static str {
    fn from(refusal: Refusal) -> &'static str {
        refusal.sentence()
    }
}

/// The number that a call of the library answered: 0 is done.
pub(crate) fn done(number: u32) -> Result<(), Refusal> {
    match number {
        0 => Ok(()),
        _ => Err(Refusal::from_number(number).expect("libscreens.a is of another version than this crate")),
    }
}

/// What a call writes to a lent number.
pub(crate) fn valued<T: Default>(call: impl FnOnce(&mut T) -> u32) -> Result<T, Refusal> {
    let mut value = T::default();
    done(call(&mut value))?;
    Ok(value)
}

/// The N numbers of a call that refuses nothing.
pub(crate) fn filled<const N: usize>(call: impl FnOnce(&mut [f64; N])) -> [f64; N] {
    let mut out = [0.0; N];
    call(&mut out);
    out
}

/// Three vectors from nine numbers.
pub(crate) fn rows([a, b, c, d, e, f, g, h, i]: [f64; 9]) -> [[f64; 3]; 3] {
    [[a, b, c], [d, e, f], [g, h, i]]
}

#[cfg(test)]
mod tests {
    use super::*;

    #[test]
    fn numbers_run_from_1_to_18() {
        for (i, refusal) in Refusal::ALL.into_iter().enumerate() {
            assert_eq!(refusal.number() as usize, i + 1);
            assert_eq!(Refusal::from_number(refusal.number()), Some(refusal));
        }
        assert_eq!(Refusal::from_number(0), None);
        assert_eq!(Refusal::from_number(19), None);
    }

    #[test]
    fn words_are_distinct() {
        let words: std::collections::BTreeSet<_> = Refusal::ALL.map(Refusal::word).into();
        assert_eq!(words.len(), 18);
    }
}
