//! Stands in for the crate rayon: one thread, results in start order ("Threads go").

pub fn current_num_threads() -> usize {
    3
}

pub struct ThreadPoolBuilder;
pub struct ThreadPool;

impl ThreadPoolBuilder {
    pub fn new() -> Self {
        ThreadPoolBuilder
    }
    pub fn num_threads(self, _: usize) -> Self {
        self
    }
    pub fn build(self) -> Result<ThreadPool, ()> {
        Ok(ThreadPool)
    }
}

impl ThreadPool {
    pub fn install<R>(&self, f: impl FnOnce() -> R) -> R {
        f()
    }
}

pub mod prelude {
    pub trait IntoParallelIterator: IntoIterator + Sized {
        fn into_par_iter(self) -> Self::IntoIter {
            self.into_iter()
        }
    }
    impl<T> IntoParallelIterator for Vec<T> {}
}
