//! The choice of a quadrature rule.
use crate::Refusal;

/// A quadrature rule on a triangle, by its degree.
///
/// ```
/// use screens::{QuadratureKind, Refusal};
///
/// assert_eq!(QuadratureKind::try_from(3), Ok(QuadratureKind::Dunavant3));
/// assert_eq!(QuadratureKind::try_from(6), Err(Refusal::NoSuchChoice));
/// ```
#[derive(Clone, Copy, Debug, PartialEq, Eq, Hash)]
#[repr(u32)]
pub enum QuadratureKind {
    /// One point.
    Dunavant1 = 1,
    /// Three points.
    Dunavant2 = 2,
    /// Four points.
    Dunavant3 = 3,
    /// Six points.
    Dunavant4 = 4,
    /// Seven points.
    Dunavant5 = 5,
}

impl QuadratureKind {
    /// Every rule, in the order of its number.
    pub const ALL: [QuadratureKind; 5] = [
        QuadratureKind::Dunavant1,
        QuadratureKind::Dunavant2,
        QuadratureKind::Dunavant3,
        QuadratureKind::Dunavant4,
        QuadratureKind::Dunavant5,
    ];

    /// Document 01's number, from 1 to 5.
    pub fn number(self) -> u32 {
        self as u32
    }
}

impl TryFrom<u32> for QuadratureKind {
    type Error = Refusal;

    /// The rule of a number from 1 to 5; any other is refused with 12.
    fn try_from(number: u32) -> Result<Self, Refusal> {
        let mut all = QuadratureKind::ALL.into_iter();
        all.find(|kind| kind.number() == number).ok_or(Refusal::NoSuchChoice)
    }
}

/// How many points a rule has on a panel.
pub fn triangle_quadrature_count(quad_kind: QuadratureKind) -> usize {
    match quad_kind {
        QuadratureKind::Dunavant1 => 1,
        QuadratureKind::Dunavant2 => 3,
        QuadratureKind::Dunavant3 => 4,
        QuadratureKind::Dunavant4 => 6,
        QuadratureKind::Dunavant5 => 7,
    }
}
