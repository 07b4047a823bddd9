//! The debouncer by document 01, "Debounce", with its part of "Refusal numbers" and of State.
//!
//! Assumes: nothing of the fields; a debouncer is any values in them, and its calls refuse the illegal ones.
//! Read so: reading the accepted picture checks State alone, and a scan taken without events checks State
//! and Scan, since neither has an event buffer; a candidate may be the accepted picture, and since may be
//! above 0 then, as State does not name that. A refused call changes nothing.

use super::{ROOM, STATE};

pub const SCAN: u8 = 10;
pub const BOUNCE: u8 = 11;

/// The places of a picture.
pub const PLACES: usize = 128;
pub type Picture = [u8; PLACES];

/// Bytes of an event.
pub const EVENT: usize = 3;

#[derive(Clone, Debug, PartialEq)]
pub struct Debouncer {
    pub rows: u16,
    pub columns: u16,
    pub nb_bounce: u16,
    pub since: u16,
    pub accepted: Picture,
    pub candidate: Picture,
}

impl Default for Debouncer {
    /// All up, 1 by 1, `nb_bounce` 0: what a refused making gives.
    fn default() -> Self {
        Debouncer {
            rows: 1,
            columns: 1,
            nb_bounce: 0,
            since: 0,
            accepted: [0; PLACES],
            candidate: [0; PLACES],
        }
    }
}

impl Debouncer {
    /// A debouncer that has accepted its start picture, or the refusal's number.
    pub fn make(rows: u16, columns: u16, nb_bounce: u16, start: &[u8]) -> Result<Self, u8> {
        let mut made = Debouncer {
            rows,
            columns,
            nb_bounce,
            ..Debouncer::default()
        };
        if !made.has_legal_numbers() {
            return Err(BOUNCE);
        }
        made.check_scan(start)?;
        made.accepted = laid(start).expect("a legal picture has its places");
        made.candidate = made.accepted;
        Ok(made)
    }

    /// The number of switches, for any sizes.
    pub fn switches(&self) -> usize {
        usize::from(self.rows) * usize::from(self.columns)
    }

    fn has_legal_numbers(&self) -> bool {
        (1..=8).contains(&self.rows)
            && (1..=16).contains(&self.columns)
            && self.nb_bounce != u16::MAX
    }

    /// Whether the debouncer is not refused for State.
    pub fn is_legal(&self) -> bool {
        self.has_legal_numbers()
            && self.since <= self.nb_bounce
            && [&self.accepted, &self.candidate].iter().all(|picture| {
                let (switches, unused) = picture.split_at(self.switches());
                switches.iter().all(|&place| place <= 1) && unused.iter().all(|&place| place == 0)
            })
    }

    fn check_state(&self) -> Result<(), u8> {
        self.is_legal().then_some(()).ok_or(STATE)
    }

    fn check_scan(&self, scan: &[u8]) -> Result<(), u8> {
        let legal = scan.len() == self.switches() && scan.iter().all(|&switch| switch <= 1);
        legal.then_some(()).ok_or(SCAN)
    }

    /// The accepted picture.
    pub fn picture(&self) -> Result<&Picture, u8> {
        self.check_state()?;
        Ok(&self.accepted)
    }

    /// Takes a scan; whether the accepted picture changed.
    pub fn update(&mut self, scan: &[u8]) -> Result<bool, u8> {
        self.check_state()?;
        self.check_scan(scan)?;
        Ok(self.take(scan))
    }

    /// Takes a scan; the events, for which there is `space` many bytes.
    pub fn events(&mut self, scan: &[u8], space: usize) -> Result<Vec<u8>, u8> {
        self.check_state()?;
        self.check_scan(scan)?;
        if space < EVENT * self.switches() {
            return Err(ROOM);
        }
        let before = self.accepted;
        self.take(scan);
        Ok(self.events_since(&before))
    }

    /// Takes a legal scan into a legal debouncer.
    fn take(&mut self, scan: &[u8]) -> bool {
        let scan = laid(scan).expect("a legal scan has its places");
        if scan == self.accepted {
            self.since = 0;
            return false;
        }
        if scan == self.candidate {
            self.since += 1;
        } else {
            self.candidate = scan;
            self.since = 1;
        }
        let passed = self.since > self.nb_bounce;
        if passed {
            std::mem::swap(&mut self.accepted, &mut self.candidate);
            self.since = 0;
        }
        passed
    }

    /// The switches that differ from an earlier picture: 1 press or 0 release, row, column.
    fn events_since(&self, before: &Picture) -> Vec<u8> {
        let columns = usize::from(self.columns);
        let mut events = Vec::new();
        for (at, (&new, &old)) in self.accepted.iter().zip(before).enumerate() {
            if new != old {
                events.extend([new, (at / columns) as u8, (at % columns) as u8]);
            }
        }
        events
    }
}

/// A picture laid into its places from the first on, the rest 0; nothing if it has more.
pub fn laid(picture: &[u8]) -> Option<Picture> {
    let mut places = [0; PLACES];
    places.get_mut(..picture.len())?.copy_from_slice(picture);
    Some(places)
}

#[cfg(test)]
mod tests {
    use super::*;

    /// All the room there may be.
    const ENOUGH: usize = EVENT * PLACES;

    fn made(rows: u16, columns: u16, nb_bounce: u16) -> Debouncer {
        let up = vec![0; usize::from(rows * columns)];
        Debouncer::make(rows, columns, nb_bounce, &up).expect("a legal debouncer")
    }

    #[test]
    fn bench_cases() {
        let mut two = made(1, 2, 2);
        assert_eq!(two.events(&[0, 1], ENOUGH), Ok(vec![]));
        assert_eq!(two.events(&[0, 1], ENOUGH), Ok(vec![]));
        assert_eq!(two.events(&[0, 1], ENOUGH), Ok(vec![1, 0, 1]));
        assert_eq!(made(1, 1, 0).events(&[1], ENOUGH), Ok(vec![1, 0, 0]));
    }

    #[test]
    fn a_return_starts_the_count_again_and_keeps_the_candidate() {
        let mut one = made(1, 1, 2);
        assert_eq!([1, 1, 0].map(|scan| one.update(&[scan])), [Ok(false); 3]);
        assert_eq!((one.since, one.candidate[0]), (0, 1));
        assert_eq!([1, 1].map(|scan| one.update(&[scan])), [Ok(false); 2]);
        assert_eq!(one.update(&[1]), Ok(true));
        assert_eq!((one.since, one.accepted[0], one.candidate[0]), (0, 1, 0));
    }

    #[test]
    fn another_candidate_counts_from_1() {
        let mut two = made(1, 2, 1);
        let scans = [[0, 1], [1, 0], [0, 1], [0, 1]];
        let changed = scans.map(|scan| two.update(&scan));
        assert_eq!(changed, [Ok(false), Ok(false), Ok(false), Ok(true)]);
    }

    #[test]
    fn events_come_row_by_row() {
        let mut four = Debouncer::make(2, 2, 0, &[0, 1, 1, 1]).expect("a legal debouncer");
        let events = four.events(&[1, 0, 1, 0], ENOUGH);
        assert_eq!(events, Ok(vec![1, 0, 0, 0, 0, 1, 0, 1, 1]));
    }

    #[test]
    fn making_checks_bounce_before_scan() {
        for (rows, columns, nb_bounce) in
            [(0, 1, 0), (9, 1, 0), (1, 0, 0), (1, 17, 0), (1, 1, 65_535)]
        {
            assert_eq!(Debouncer::make(rows, columns, nb_bounce, &[2]), Err(BOUNCE));
        }
        for start in [&[][..], &[0], &[0, 2], &[0, 0, 0]] {
            assert_eq!(Debouncer::make(1, 2, 65_534, start), Err(SCAN));
        }
    }

    /// A legal debouncer of two switches with one field changed.
    fn with(change: impl FnOnce(&mut Debouncer)) -> Debouncer {
        let mut debouncer = made(1, 2, 3);
        change(&mut debouncer);
        debouncer
    }

    #[test]
    fn each_cause_is_state() {
        let illegal = [
            with(|d| d.rows = 0),
            with(|d| d.rows = 9),
            with(|d| d.columns = 0),
            with(|d| d.columns = 17),
            with(|d| (d.rows, d.columns) = (16, 8)),
            with(|d| (d.rows, d.columns) = (4_096, 16)),
            with(|d| d.nb_bounce = 65_535),
            with(|d| d.since = 4),
            with(|d| d.accepted[1] = 2),
            with(|d| d.candidate[0] = 9),
            with(|d| d.accepted[2] = 1),
            with(|d| d.candidate[127] = 1),
        ];
        for debouncer in illegal {
            assert_eq!(debouncer.picture(), Err(STATE), "{debouncer:?}");
            // the scan and the room are bad too, and come after
            assert_eq!(debouncer.clone().update(&[]), Err(STATE));
            assert_eq!(debouncer.clone().events(&[2], 0), Err(STATE));
        }
        let legal = [with(|d| d.since = 3), with(|d| d.nb_bounce = 65_534)];
        assert!(legal.iter().all(|debouncer| debouncer.picture().is_ok()));
    }

    #[test]
    fn a_call_checks_scan_before_room_and_a_refused_one_changes_nothing() {
        let mut two = made(1, 2, 0);
        let fresh = two.clone();
        assert_eq!(two.events(&[1], 0), Err(SCAN));
        assert_eq!(two.events(&[1, 2], 0), Err(SCAN));
        assert_eq!(two.events(&[1, 1], 5), Err(ROOM));
        assert_eq!(two, fresh);
        assert_eq!(two.events(&[1, 1], 6), Ok(vec![1, 0, 0, 1, 0, 1]));
    }

    #[test]
    fn the_longest_bounce_is_reached() {
        let mut one = with(|d| (d.nb_bounce, d.since, d.candidate[0]) = (65_534, 65_533, 1));
        assert_eq!(one.update(&[1, 0]), Ok(false));
        assert_eq!(one.update(&[1, 0]), Ok(true));
    }
}
