//! Stand-in for heapless, for counting: the vector of 64 places that keyberon's layout keeps its states in.
//!
//! Kept of the real crate: the elements lie in the vector itself, a push on a full one hands the element back,
//! and collecting goes by pushing into a new vector, which is then moved.
//! Assumes: the elements need no dropping, as keyberon's states do not.

use std::iter::FromIterator;
use std::marker::PhantomData;
use std::mem::MaybeUninit;
use std::ops::Deref;

const PLACES: usize = 64;

pub mod consts {
    /// 64 places, the only capacity there is.
    pub enum U64 {}
}

pub struct Vec<T, N> {
    places: [MaybeUninit<T>; PLACES],
    len: usize,
    capacity: PhantomData<N>,
}

impl<T, N> Vec<T, N> {
    pub fn new() -> Self {
        Vec {
            // Safety: places without a value need none.
            places: unsafe { MaybeUninit::uninit().assume_init() },
            len: 0,
            capacity: PhantomData,
        }
    }

    pub fn push(&mut self, item: T) -> Result<(), T> {
        if self.len == PLACES {
            return Err(item);
        }
        // Safety: the place is below the capacity.
        unsafe { *self.places.get_unchecked_mut(self.len) = MaybeUninit::new(item) };
        self.len += 1;
        Ok(())
    }
}

impl<T, N> Default for Vec<T, N> {
    fn default() -> Self {
        Self::new()
    }
}

impl<T, N> Deref for Vec<T, N> {
    type Target = [T];

    fn deref(&self) -> &[T] {
        // Safety: the first `len` places have been pushed to.
        unsafe { std::slice::from_raw_parts(self.places.as_ptr().cast(), self.len) }
    }
}

impl<T, N> FromIterator<T> for Vec<T, N> {
    fn from_iter<I: IntoIterator<Item = T>>(items: I) -> Self {
        let mut collected = Self::new();
        for item in items {
            assert!(collected.push(item).is_ok(), "more items than places");
        }
        collected
    }
}
