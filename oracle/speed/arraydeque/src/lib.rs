//! Stand-in for arraydeque, for counting: the ring of 16 places that keyberon's layout keeps its events in.
//!
//! Kept of the real crate: the elements lie in the ring itself, and a push on a full one hands back the oldest.
//! Assumes: the elements need no dropping, as keyberon's events do not.

use std::iter::Chain;
use std::marker::PhantomData;
use std::mem::MaybeUninit;
use std::slice::{self, Iter, IterMut};

const PLACES: usize = 16;

/// The array type that names the element.
pub trait Array {
    type Item;
}

impl<T> Array for [T; PLACES] {
    type Item = T;
}

pub mod behavior {
    /// The newest element pushes out the oldest.
    pub enum Wrapping {}
}

pub struct ArrayDeque<A: Array, B> {
    places: [MaybeUninit<A::Item>; PLACES],
    first: usize,
    len: usize,
    behavior: PhantomData<B>,
}

impl<A: Array> ArrayDeque<A, behavior::Wrapping> {
    pub fn new() -> Self {
        ArrayDeque {
            // Safety: places without a value need none.
            places: unsafe { MaybeUninit::uninit().assume_init() },
            first: 0,
            len: 0,
            behavior: PhantomData,
        }
    }

    fn place(&self, behind: usize) -> usize {
        (self.first + behind) % PLACES
    }

    pub fn push_back(&mut self, item: A::Item) -> Option<A::Item> {
        let oldest = if self.len == PLACES {
            self.pop_front()
        } else {
            None
        };
        let place = self.place(self.len);
        self.places[place] = MaybeUninit::new(item);
        self.len += 1;
        oldest
    }

    pub fn pop_front(&mut self) -> Option<A::Item> {
        if self.len == 0 {
            return None;
        }
        // Safety: the first of the places in use was pushed to, and is not in use from here on.
        let oldest = unsafe { self.places[self.first].as_ptr().read() };
        self.first = self.place(1);
        self.len -= 1;
        Some(oldest)
    }

    /// How many elements lie from the first to the end of the places, and how many from their start.
    fn stretches(&self) -> (usize, usize) {
        let to_end = self.len.min(PLACES - self.first);
        (to_end, self.len - to_end)
    }

    pub fn iter(&self) -> Chain<Iter<'_, A::Item>, Iter<'_, A::Item>> {
        let (to_end, from_start) = self.stretches();
        let start: *const A::Item = self.places.as_ptr().cast();
        // Safety: both stretches are in use, so they were pushed to.
        unsafe {
            let old = slice::from_raw_parts(start.add(self.first), to_end);
            old.iter().chain(slice::from_raw_parts(start, from_start))
        }
    }

    pub fn iter_mut(&mut self) -> Chain<IterMut<'_, A::Item>, IterMut<'_, A::Item>> {
        let (to_end, from_start) = self.stretches();
        let start: *mut A::Item = self.places.as_mut_ptr().cast();
        // Safety: both stretches are in use, so they were pushed to, and they do not overlap.
        unsafe {
            let old = slice::from_raw_parts_mut(start.add(self.first), to_end);
            old.iter_mut()
                .chain(slice::from_raw_parts_mut(start, from_start))
        }
    }
}
