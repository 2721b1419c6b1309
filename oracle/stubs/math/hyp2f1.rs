//! Outside the scope; only the names exist.
pub fn hyp2f1() {}
pub fn hyp2f1_par() {}
pub fn hyp2f1_scalar() {}
