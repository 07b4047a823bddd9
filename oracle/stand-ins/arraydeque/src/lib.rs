//! Stand-in for arraydeque: the queue of fixed capacity that keyberon's layout keeps its events in.
//!
//! Kept of the real crate, with its wrapping behaviour: a push at the back of a full queue takes the
//! element in and hands back the oldest, which leaves at the front; on a queue with room it hands back
//! nothing. The order is that of pushing. Not kept: that nothing is allocated.

use std::collections::{vec_deque, VecDeque};
use std::marker::PhantomData;

/// The array type that names element and capacity.
pub trait Array {
    type Item;
    const PLACES: usize;
}

impl<T, const N: usize> Array for [T; N] {
    type Item = T;
    const PLACES: usize = N;
}

pub mod behavior {
    /// The newest element pushes out the oldest.
    pub enum Wrapping {}
}

pub struct ArrayDeque<A: Array, B> {
    items: VecDeque<A::Item>,
    behavior: PhantomData<B>,
}

impl<A: Array> ArrayDeque<A, behavior::Wrapping> {
    pub fn new() -> Self {
        ArrayDeque {
            items: VecDeque::with_capacity(A::PLACES),
            behavior: PhantomData,
        }
    }

    pub fn push_back(&mut self, item: A::Item) -> Option<A::Item> {
        let oldest = if self.items.len() == A::PLACES {
            self.items.pop_front()
        } else {
            None
        };
        self.items.push_back(item);
        oldest
    }

    pub fn pop_front(&mut self) -> Option<A::Item> {
        self.items.pop_front()
    }

    pub fn iter(&self) -> vec_deque::Iter<'_, A::Item> {
        self.items.iter()
    }

    pub fn iter_mut(&mut self) -> vec_deque::IterMut<'_, A::Item> {
        self.items.iter_mut()
    }
}

impl<A: Array> Default for ArrayDeque<A, behavior::Wrapping> {
    fn default() -> Self {
        Self::new()
    }
}

#[cfg(test)]
mod tests {
    use super::{behavior::Wrapping, ArrayDeque};

    #[test]
    fn a_full_queue_hands_back_its_oldest() {
        let mut queue: ArrayDeque<[u8; 2], Wrapping> = ArrayDeque::new();
        assert_eq!(queue.push_back(1), None);
        assert_eq!(queue.push_back(2), None);
        assert_eq!(queue.push_back(3), Some(1));
        assert_eq!(queue.iter().copied().collect::<Vec<_>>(), [2, 3]);
    }
}
