//! Stand-in for heapless: the vector of fixed capacity that keyberon's layout keeps its states in.
//!
//! Kept of the real crate: a push on a full vector changes nothing and hands the element back as `Err`;
//! collecting more elements than the capacity panics; the vector reads as a slice, in order of pushing.
//! Not kept: that nothing is allocated.
//! Added: how many elements were handed back. keyberon does not look at what a push answers, so this is all that
//! tells of a state that it dropped.

use std::cell::Cell;
use std::iter::FromIterator;
use std::marker::PhantomData;
use std::ops::Deref;

/// A capacity named by a type, as the real crate names it.
pub trait Capacity {
    const PLACES: usize;
}

pub mod consts {
    /// 64 places.
    pub enum U64 {}

    impl super::Capacity for U64 {
        const PLACES: usize = 64;
    }
}

thread_local! {
    static HANDED_BACK: Cell<usize> = const { Cell::new(0) };
}

/// How many elements pushes have handed back on this thread since this was last asked.
pub fn take_handed_back() -> usize {
    HANDED_BACK.with(|count| count.replace(0))
}

pub struct Vec<T, N> {
    items: std::vec::Vec<T>,
    capacity: PhantomData<N>,
}

impl<T, N: Capacity> Vec<T, N> {
    pub fn new() -> Self {
        Vec {
            items: std::vec::Vec::with_capacity(N::PLACES),
            capacity: PhantomData,
        }
    }

    pub fn push(&mut self, item: T) -> Result<(), T> {
        if self.items.len() == N::PLACES {
            HANDED_BACK.with(|count| count.set(count.get() + 1));
            return Err(item);
        }
        self.items.push(item);
        Ok(())
    }
}

impl<T, N: Capacity> Default for Vec<T, N> {
    fn default() -> Self {
        Self::new()
    }
}

impl<T, N> Deref for Vec<T, N> {
    type Target = [T];

    fn deref(&self) -> &[T] {
        &self.items
    }
}

impl<T, N: Capacity> FromIterator<T> for Vec<T, N> {
    fn from_iter<I: IntoIterator<Item = T>>(items: I) -> Self {
        let mut collected = Self::new();
        for item in items {
            assert!(collected.push(item).is_ok(), "more items than places");
        }
        collected
    }
}

#[cfg(test)]
mod tests {
    use super::{consts::U64, take_handed_back, Vec};

    #[test]
    fn the_65th_comes_back() {
        let mut full: Vec<u8, U64> = (0..64).collect();
        assert_eq!(full.push(200), Err(200));
        assert_eq!(full.len(), 64);
        assert_eq!((take_handed_back(), take_handed_back()), (1, 0));
    }

    #[test]
    #[should_panic]
    fn collecting_65_panics() {
        let _: Vec<u8, U64> = (0..65).collect();
    }
}
