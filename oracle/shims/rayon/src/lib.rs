//! Serial stand-in: the parallel version is outside the scope, it only has to compile.
pub mod iter {
    pub trait IntoParallelIterator: IntoIterator + Sized {
        fn into_par_iter(self) -> Self::IntoIter {
            self.into_iter()
        }
    }
    impl<T: IntoIterator> IntoParallelIterator for T {}
    pub trait ParallelIterator {}
    pub trait IndexedParallelIterator {}
}
