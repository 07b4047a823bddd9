//! How often each refusal was the answer, for the closing line of a comparison.
//!
//! Assumes: a kind of script has refusals of the numbers it names and of no others.

use std::fmt;
use std::ops::RangeInclusive;

/// The refusals of images.
pub const OF_IMAGES: RangeInclusive<u8> = 1..=9;

pub struct Tally {
    numbers: Vec<u8>,
    times: Vec<usize>,
}

impl Tally {
    pub fn of_numbers(numbers: impl IntoIterator<Item = u8>) -> Self {
        let numbers: Vec<u8> = numbers.into_iter().collect();
        Tally {
            times: vec![0; numbers.len()],
            numbers,
        }
    }

    pub fn of_images() -> Self {
        Tally::of_numbers(OF_IMAGES)
    }

    pub fn add(&mut self, number: u8) {
        let place = self.place(number);
        self.times[place] += 1;
    }

    /// How often a number was the answer.
    pub fn of(&self, number: u8) -> usize {
        self.times[self.place(number)]
    }

    fn place(&self, number: u8) -> usize {
        let place = self.numbers.iter().position(|&named| named == number);
        place.expect("a refusal that this kind of script has")
    }
}

impl fmt::Display for Tally {
    fn fmt(&self, f: &mut fmt::Formatter) -> fmt::Result {
        let parts: Vec<String> = (self.numbers.iter().zip(&self.times))
            .map(|(number, times)| format!("{number}: {times}"))
            .collect();
        write!(f, "refused {}", parts.join(", "))
    }
}
