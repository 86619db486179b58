//! Stand-in for crate `dupe`: cloning that is known to be cheap.

pub use derives::Dupe;

pub trait Dupe: Clone {
    fn dupe(&self) -> Self {
        self.clone()
    }
}

pub trait OptionDupedExt<T> {
    fn duped(self) -> Option<T>;
}

impl<T: Dupe> OptionDupedExt<T> for Option<&T> {
    fn duped(self) -> Option<T> {
        self.map(T::dupe)
    }
}
