//! Stand-in for `uuid`: an id is a place in the plan, counted within its kind from 0.
use std::fmt;

#[derive(Clone, Copy, PartialEq, Eq, PartialOrd, Ord, Hash)]
pub struct Uuid(usize);

impl Uuid {
    #[inline]
    pub fn at(place: usize) -> Self {
        Self(place)
    }

    #[inline]
    pub fn place(self) -> usize {
        self.0
    }

    /// The original asks for a fresh id here; the caller sets the place afterwards.
    pub fn new_v4() -> Self {
        Self(usize::MAX)
    }
}

impl fmt::Debug for Uuid {
    fn fmt(&self, f: &mut fmt::Formatter<'_>) -> fmt::Result {
        write!(f, "{}", self.0)
    }
}

impl fmt::Display for Uuid {
    fn fmt(&self, f: &mut fmt::Formatter<'_>) -> fmt::Result {
        write!(f, "{}", self.0)
    }
}
