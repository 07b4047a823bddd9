//! The idle clock by document 01, "Report and keyboard", its last paragraph. The Rust has none.
//!
//! Assumes: nothing of the record; every rate and count is legal.

/// The count stops here: the longest period, 4 times 255.
const LONGEST: u16 = 1_020;

#[derive(Clone, Copy, Default)]
pub struct Idle {
    pub rate: u8,
    pub count: u16,
}

impl Idle {
    /// A fresh period, after a changed report or at Set_Idle.
    pub fn start(&mut self) {
        self.count = 0;
    }

    /// One clock call: whether a report is due.
    pub fn clock(&mut self) -> bool {
        self.count = self.count.saturating_add(1).min(LONGEST);
        let due = self.rate != 0 && self.count >= 4 * u16::from(self.rate);
        if due {
            self.start();
        }
        due
    }
}

#[cfg(test)]
mod tests {
    use super::*;

    #[test]
    fn due_at_every_fourth_call_of_rate_one() {
        let mut idle = Idle { rate: 1, count: 0 };
        let due: Vec<bool> = (0..9).map(|_| idle.clock()).collect();
        assert_eq!(
            due,
            [false, false, false, true, false, false, false, true, false]
        );
    }

    #[test]
    fn rate_zero_repeats_nothing_and_counts_to_the_longest() {
        let mut idle = Idle::default();
        assert!((0..3_000).all(|_| !idle.clock()));
        assert_eq!(idle.count, LONGEST);
    }

    #[test]
    fn a_count_past_the_period_is_due() {
        let mut idle = Idle {
            rate: 2,
            count: 65_535,
        };
        assert!(idle.clock());
        assert_eq!(idle.count, 0);
    }
}
