//! A seeded source of numbers (splitmix64): the same seed gives the same scripts on every machine.
//!
//! Assumes: nothing hangs on the quality of the numbers but the spread of the cases tried.

pub struct Random(u64);

impl Random {
    pub fn new(seed: u64) -> Self {
        Random(seed)
    }

    fn next(&mut self) -> u64 {
        self.0 = self.0.wrapping_add(0x9E37_79B9_7F4A_7C15);
        let mut mixed = self.0;
        mixed = (mixed ^ (mixed >> 30)).wrapping_mul(0xBF58_476D_1CE4_E5B9);
        mixed = (mixed ^ (mixed >> 27)).wrapping_mul(0x94D0_49BB_1331_11EB);
        mixed ^ (mixed >> 31)
    }

    /// A number from 0 up to, not with, `end`, which is not 0.
    pub fn below(&mut self, end: usize) -> usize {
        (self.next() % end as u64) as usize
    }

    /// A number of a closed range.
    pub fn among(&mut self, first: usize, last: usize) -> usize {
        first + self.below(last - first + 1)
    }

    /// A place from the first up to, not with, `end`; more often the first or the last.
    pub fn place(&mut self, first: usize, end: usize) -> usize {
        match self.below(4) {
            0 => first,
            1 => end - 1,
            _ => self.among(first, end - 1),
        }
    }

    /// One of the items, of which there is at least one.
    pub fn pick<T: Copy>(&mut self, items: &[T]) -> T {
        items[self.below(items.len())]
    }

    /// One of the items, each as often as its share of all shares.
    pub fn by_share<T: Copy>(&mut self, items: &[(T, usize)]) -> T {
        let all = items.iter().map(|(_, share)| share).sum();
        let mut at = self.below(all);
        for &(item, share) in items {
            if at < share {
                return item;
            }
            at -= share;
        }
        unreachable!("the shares sum up to all of them")
    }

    /// Yes, once in `times`.
    pub fn once_in(&mut self, times: usize) -> bool {
        self.below(times) == 0
    }

    pub fn shuffle<T>(&mut self, items: &mut [T]) {
        for last in (1..items.len()).rev() {
            items.swap(last, self.below(last + 1));
        }
    }
}
