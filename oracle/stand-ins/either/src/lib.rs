//! Stand-in for either: one of two iterators over the same items, walked as one.
//!
//! Kept of the real crate: the names of the type and its cases, and that it yields what the iterator
//! within yields.

pub enum Either<L, R> {
    Left(L),
    Right(R),
}

impl<L, R> Iterator for Either<L, R>
where
    L: Iterator,
    R: Iterator<Item = L::Item>,
{
    type Item = L::Item;

    fn next(&mut self) -> Option<L::Item> {
        match self {
            Either::Left(items) => items.next(),
            Either::Right(items) => items.next(),
        }
    }
}
