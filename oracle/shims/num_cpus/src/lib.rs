//! Only the parallel version (outside the scope) calls this.
pub fn get_physical() -> usize {
    1
}
