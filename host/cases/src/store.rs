//! A store of named shapes as a case has it: five slices of any lengths.

/// Marks, names and coordinates of the places, place after place.
#[derive(Clone, Debug, Default)]
pub struct Store {
    /// A byte a place, 0 if it is free.
    pub marks: Vec<u8>,
    /// Eight bytes a place.
    pub names: Vec<u8>,
    /// The x of each place's nodes.
    pub x: Vec<f64>,
    /// Their y.
    pub y: Vec<f64>,
    /// Their z.
    pub z: Vec<f64>,
}

/// The name of a shape.
pub type Name = [u8; 8];
