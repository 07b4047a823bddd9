//! What marks tell. Of a call: how many states it dropped. Of a whole run: the events acted on, and whether each
//! hold-tap begun was decided once and in time.
//!
//! Assumes: the marks of a whole run are those of all calls since the layout was fresh, in order.

use super::layout::{Coord, Event, Mark};

/// How many states had no place (document 02, W-202): codes and held layers alike, whatever ran them.
pub fn dropped(marks: &[Mark]) -> usize {
    let is_drop = |mark: &&Mark| matches!(mark, Mark::Dropped(_));
    marks.iter().filter(is_drop).count()
}

/// The events acted on, in order.
pub fn acted(marks: &[Mark]) -> Vec<Event> {
    let acted = |mark: &Mark| match *mark {
        Mark::Acted(event) => Some(event),
        _ => None,
    };
    marks.iter().filter_map(acted).collect()
}

/// The hold-tap begun and not decided, if there is one. A fault is named: a hold-tap that is begun, or an event
/// that is acted on, before the one at hand is decided; or a decision of another one, or of none.
pub fn pending(marks: &[Mark]) -> Result<Option<Coord>, String> {
    let mut begun: Option<Coord> = None;
    for mark in marks {
        begun = match (*mark, begun) {
            (Mark::Begun { at, .. }, None) => Some(at),
            (Mark::Decided { at, .. }, Some(key)) if at == key => None,
            (Mark::Acted(_), None) => None,
            (Mark::Begun { .. } | Mark::Decided { .. } | Mark::Acted(_), _) => {
                return Err(format!("{mark:?} with {begun:?} begun and not decided"));
            }
            _ => begun,
        }
    }
    Ok(begun)
}

#[cfg(test)]
mod tests {
    use super::*;
    use crate::generate::lively_image;
    use crate::paper::image::{check, Parts};
    use crate::paper::layout::{Layout, CODES, MOST_QUEUED, MOST_STATES};
    use crate::random::Random;

    fn decisions(marks: &[Mark]) -> usize {
        let decided = |mark: &&Mark| matches!(mark, Mark::Decided { .. });
        marks.iter().filter(decided).count()
    }

    /// How many states the records that were run have, with a place or without.
    fn ran(marks: &[Mark], table: &Parts) -> usize {
        let states = |mark: &Mark| match *mark {
            Mark::Ran(record) => match table.records[usize::from(record)] {
                [2 | 5, ..] => 1,
                [CODES, _, count, _] => count.into(),
                _ => 0,
            },
            _ => 0,
        };
        marks.iter().map(states).sum()
    }

    /// Every state that was run is held or was dropped, and none is dropped while there is a place.
    fn check_drops(marks: &[Mark], table: &Parts, before: usize, after: usize) {
        let dropped = dropped(marks);
        if !matches!(acted(marks).as_slice(), [Event::Release(_)]) {
            assert_eq!(before + ran(marks, table), after + dropped);
            assert!(dropped == 0 || after == MOST_STATES);
        }
    }

    /// A random run; how many calls made two decisions, and how many dropped a state.
    fn check_run(random: &mut Random, table: &Parts) -> [usize; 2] {
        let (mut layout, mut marks) = (Layout::default(), Vec::new());
        let (mut arrived, mut twice, mut dropping) = (Vec::new(), 0, 0);
        let ticks = random.among(1, 6);
        for _ in 0..300 {
            let at = (
                random.below(table.rows) as u8,
                random.below(table.columns) as u8,
            );
            let before = layout.states.len();
            let of_call = match random.below(4 + ticks) {
                0 | 1 => {
                    arrived.push(Event::Press(at));
                    layout.event(table, Event::Press(at))
                }
                2 | 3 => {
                    arrived.push(Event::Release(at));
                    layout.event(table, Event::Release(at))
                }
                _ => layout.tick(table),
            };
            assert!(acted(&of_call).len() <= 1 && decisions(&of_call) <= 2);
            check_drops(&of_call, table, before, layout.states.len());
            twice += usize::from(decisions(&of_call) == 2);
            dropping += usize::from(dropped(&of_call) > 0);
            marks.extend(of_call);
            assert!(layout.states.len() <= MOST_STATES && layout.queue.len() <= MOST_QUEUED);
        }
        let queued = layout.queue.iter().map(|queued| queued.event);
        let all: Vec<Event> = acted(&marks).into_iter().chain(queued).collect();
        assert_eq!(all, arrived);
        let waits = layout.waiting.map(|waiting| waiting.at);
        assert_eq!(pending(&marks), Ok(waits));
        [twice, dropping]
    }

    /// Random runs over so many tables, and the same of all of them.
    fn check_runs(seed: u64, tables: usize) -> [usize; 2] {
        let mut random = Random::new(seed);
        let mut all = [0, 0];
        for _ in 0..tables {
            let table = check(&lively_image(&mut random)).expect("an accepted table");
            let run = check_run(&mut random, &table);
            all = [all[0] + run[0], all[1] + run[1]];
        }
        all
    }

    #[test]
    fn events_are_acted_on_in_order_and_hold_taps_decided_once() {
        let [twice, _] = check_runs(8, 2_000);
        assert!(twice > 100, "{twice}");
    }

    #[test]
    fn states_that_are_run_are_held_or_dropped() {
        let [_, dropping] = check_runs(9, 2_000);
        assert!(dropping > 1_000, "{dropping}");
    }
}
