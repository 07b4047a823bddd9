//! `oracle drains`: demand 3 by trial. Random calls on a fresh layout, then ticks alone: with q events queued and
//! M the table's longest hold time, within 2q + max(1, M) ticks the queue is empty and nothing waits, and so it
//! stays; each event was acted on once, in order of arrival, and each hold-tap begun decided once, before a later
//! event was acted on; if all keys were released, no state is left and the report is eight zero bytes.
//!
//! Assumes: the Rust's fields are private, so queue, wait and history are the paper's; its codes are held to the
//! Rust's after every call. The report is the Rust's.

use crate::answers::codes;
use crate::answers::layout::{codes_text, rust_codes};
use crate::generate::drains::Case;
use crate::paper::calls::Call;
use crate::paper::image::{check, Parts};
use crate::paper::layout::{Event, Layout, Mark, MOST_QUEUED};
use crate::paper::marks::{acted, pending};
use crate::paper::times::longest;
use crate::random::Random;
use crate::table::Tabled;
use crate::{guard, key_code};
use std::collections::BTreeMap;
use std::fmt;
use std::process::ExitCode;

const ZERO_REPORT: &str = "0000000000000000";

/// Ticks after a layout has come to rest, at which it must stay so.
const TICKS_AT_REST: usize = 5;

/// Ticks until the paper's case is at rest.
const OF_THE_PAPER: usize = 33;

/// What a drain came to.
#[derive(Debug)]
struct Drain {
    queued: usize,
    bound: usize,
    /// The first number of ticks after which the layout is at rest.
    ticks: usize,
    all_released: bool,
}

/// By what a drain is judged: the bound, and the paper's steps.
struct Judge {
    bound: fn(usize, u16) -> usize,
    step: fn(&mut Layout, &Parts, Call) -> Vec<Mark>,
}

const JUDGE: Judge = Judge { bound, step };

/// Of the number of queued events and the longest hold time.
fn bound(queued: usize, longest: u16) -> usize {
    2 * queued + usize::from(longest).max(1)
}

fn step(layout: &mut Layout, table: &Parts, call: Call) -> Vec<Mark> {
    match call {
        Call::Event(event) => layout.event(table, event),
        Call::Tick => layout.tick(table),
        Call::Keycodes => Vec::new(),
    }
}

/// The Rust and the paper over one table, and what happened since they were fresh.
struct Run<'a> {
    table: &'a Parts,
    judge: &'a Judge,
    rust: Tabled,
    paper: Layout,
    marks: Vec<Mark>,
}

impl Run<'_> {
    fn call(&mut self, call: Call) -> Result<(), String> {
        let marks = (self.judge.step)(&mut self.paper, self.table, call);
        self.marks.extend(marks);
        let rust = self.rust.answer(|layout| rust_codes(layout, call));
        let paper = codes_text(&self.paper.codes());
        if rust != paper {
            return Err(format!(
                "at '{call}' the Rust has {rust}, the paper {paper}"
            ));
        }
        Ok(())
    }

    fn at_rest(&self) -> bool {
        self.paper.queue.is_empty() && self.paper.waiting.is_none()
    }

    /// Ticks until all is at rest, and some more; how many it took.
    fn drain(&mut self, bound: usize) -> Result<usize, String> {
        let mut ticks = 0;
        while !self.at_rest() {
            if ticks == bound {
                return Err(format!("not at rest after {bound} ticks"));
            }
            self.call(Call::Tick)?;
            ticks += 1;
        }
        let codes = self.paper.codes();
        for more in 1..=TICKS_AT_REST {
            self.call(Call::Tick)?;
            if !self.at_rest() || self.paper.codes() != codes {
                return Err(format!(
                    "at rest after {ticks} ticks, not after {more} more"
                ));
            }
        }
        Ok(ticks)
    }

    fn check_released(&mut self) -> Result<(), String> {
        let report = self
            .rust
            .answer(|layout| codes::report(&key_code::bytes(layout.keycodes())));
        let states = &self.paper.states;
        match states.is_empty() && report == ZERO_REPORT {
            true => Ok(()),
            false => Err(format!("all released, but {states:?} and report {report}")),
        }
    }
}

/// Whether every key's last event was a release.
fn all_released(arrived: &[Event]) -> bool {
    let last: BTreeMap<_, _> = arrived
        .iter()
        .map(|event| match *event {
            Event::Press(at) => (at, true),
            Event::Release(at) => (at, false),
        })
        .collect();
    !last.into_values().any(|down| down)
}

impl Judge {
    /// What the case's drain came to, or what is wrong with it.
    fn drain(&self, case: &Case) -> Result<Drain, String> {
        let table = check(&case.image).map_err(|refusal| refusal.to_string())?;
        let mut run = Run {
            table: &table,
            judge: self,
            rust: Tabled::new(&table),
            paper: Layout::default(),
            marks: Vec::new(),
        };
        for &call in &case.calls {
            run.call(call)?;
        }
        let queued = run.paper.queue.len();
        let bound = (self.bound)(queued, longest(&table));
        let ticks = run.drain(bound)?;
        let arrived = case.arrived();
        if acted(&run.marks) != arrived {
            return Err(format!("acted on {:?}", acted(&run.marks)));
        }
        if let Some(at) = pending(&run.marks)? {
            return Err(format!("the hold-tap at {at:?} was not decided"));
        }
        let all_released = all_released(&arrived);
        if all_released {
            run.check_released()?;
        }
        Ok(Drain {
            queued,
            bound,
            ticks,
            all_released,
        })
    }

    /// The paper's case, then so many random ones.
    fn run(&self, count: usize, seed: u64) -> Result<Counts, Failure> {
        let (mut counts, mut random) = (Counts::default(), Random::new(seed));
        let case = Case::of_the_paper();
        match self.drain(&case) {
            Ok(Drain { ticks, .. }) if ticks == OF_THE_PAPER => (),
            Ok(drain) => return Err(Failure::of(case, format!("{drain:?}"))),
            Err(message) => return Err(Failure::of(case, message)),
        }
        for _ in 0..count {
            let case = Case::random(&mut random);
            match self.drain(&case) {
                Ok(drain) => counts.add(&drain),
                Err(message) => return Err(Failure::of(case, message)),
            }
        }
        Ok(counts)
    }
}

#[derive(Default)]
struct Counts {
    drains: usize,
    from_full: usize,
    at_bound: usize,
    all_released: usize,
    longest: usize,
}

impl Counts {
    fn add(&mut self, drain: &Drain) {
        self.drains += 1;
        self.from_full += usize::from(drain.queued == MOST_QUEUED);
        self.at_bound += usize::from(drain.ticks == drain.bound);
        self.all_released += usize::from(drain.all_released);
        self.longest = self.longest.max(drain.ticks);
    }
}

impl fmt::Display for Counts {
    fn fmt(&self, f: &mut fmt::Formatter) -> fmt::Result {
        let Counts {
            drains,
            from_full,
            at_bound,
            all_released,
            longest,
        } = self;
        write!(
            f,
            "{drains} drains within the bound, {at_bound} of them at it, {from_full} from a full queue; \
             {all_released} with all keys released, each to a zero report; the longest of {longest} ticks; \
             the paper's case of {OF_THE_PAPER}"
        )
    }
}

struct Failure {
    case: Case,
    message: String,
}

impl Failure {
    fn of(case: Case, message: String) -> Self {
        Failure { case, message }
    }
}

/// Runs so many drains; the exit code is 1 at the first that is not as it should be, which is shown.
pub fn run(count: usize, seed: u64) -> ExitCode {
    guard::silence();
    match JUDGE.run(count, seed) {
        Ok(counts) => {
            println!("drains: {counts}");
            ExitCode::SUCCESS
        }
        Err(Failure { case, message }) => {
            println!("drains: seed {seed}: {message}. The calls, before ticks alone:");
            case.lines().iter().for_each(|line| println!("  {line}"));
            ExitCode::from(1)
        }
    }
}

#[cfg(test)]
mod tests {
    use super::*;

    const DRAINS: usize = 3_000;

    fn message(judge: &Judge) -> String {
        match judge.run(DRAINS, 1) {
            Ok(counts) => format!("nothing: {counts}"),
            Err(failure) => failure.message,
        }
    }

    #[test]
    fn drains_come_in_all_kinds() {
        let counts = JUDGE.run(DRAINS, 1).unwrap_or_else(|failure| {
            panic!("{}: {:?}", failure.message, failure.case);
        });
        assert_eq!(counts.drains, DRAINS);
        assert!(counts.at_bound > DRAINS / 50, "{counts}");
        assert!(counts.all_released > DRAINS / 5, "{counts}");
    }

    #[test]
    fn the_papers_case_is_not_at_rest_before_its_last_tick() {
        let short = Judge {
            bound: |_, _| OF_THE_PAPER - 1,
            ..JUDGE
        };
        assert!(JUDGE.drain(&Case::of_the_paper()).is_ok());
        assert!(short.drain(&Case::of_the_paper()).is_err());
    }

    /// A bound that is one too small, for short timeouts and for all: the random drains alone show it.
    #[test]
    fn a_bound_too_small_is_noticed() {
        for bound in [
            |queued: usize, longest: u16| 2 * queued + usize::from(longest),
            |queued: usize, longest: u16| bound(queued, longest) - usize::from(longest > 1),
        ] {
            let (judge, mut random) = (Judge { bound, ..JUDGE }, Random::new(1));
            let mut cases = (0..DRAINS).map(|_| Case::random(&mut random));
            let noticed = cases.find_map(|case| judge.drain(&case).err());
            let message = noticed.expect("a bound too small is passed");
            assert!(message.starts_with("not at rest after"), "{message}");
        }
    }

    /// Steps that go wrong, and how that shows.
    #[test]
    fn wrong_steps_are_noticed() {
        let wrong: [(fn(&mut Layout, &Parts, Call) -> Vec<Mark>, &str); 6] = [
            (ages_twice, "the Rust has"),
            (loses_the_release, "the Rust has"),
            (starts_again, "not at rest after"),
            (wakes, "not after 1 more"),
            (acts_twice, "acted on"),
            (decides_nothing, "begun and not decided"),
        ];
        for (step, shows) in wrong {
            let message = message(&Judge { step, ..JUDGE });
            assert!(message.contains(shows), "{shows}: {message}");
        }
    }

    /// A tick that ages the queue a second time, so that later hold-taps are decided too early.
    fn ages_twice(layout: &mut Layout, table: &Parts, call: Call) -> Vec<Mark> {
        for queued in &mut layout.queue {
            queued.age = queued.age.saturating_add(u16::from(call == Call::Tick));
        }
        step(layout, table, call)
    }

    /// The release that decides a tap leaves the queue.
    fn loses_the_release(layout: &mut Layout, table: &Parts, call: Call) -> Vec<Mark> {
        let marks = step(layout, table, call);
        for mark in &marks {
            if let Mark::Decided { at, tap: true, .. } = *mark {
                layout
                    .queue
                    .retain(|queued| queued.event != Event::Release(at));
            }
        }
        marks
    }

    /// A wait whose ticks do not fall when nothing is queued; no code tells.
    fn starts_again(layout: &mut Layout, table: &Parts, call: Call) -> Vec<Mark> {
        let before = layout.clone();
        let marks = step(layout, table, call);
        if call == Call::Tick && layout.codes() == before.codes() && before.queue.is_empty() {
            *layout = before;
        }
        marks
    }

    /// At rest a tick queues an event.
    fn wakes(layout: &mut Layout, table: &Parts, call: Call) -> Vec<Mark> {
        let at_rest = layout.queue.is_empty() && layout.waiting.is_none();
        if call == Call::Tick && at_rest {
            layout.event(table, Event::Release((255, 255)));
            return Vec::new();
        }
        step(layout, table, call)
    }

    fn acts_twice(layout: &mut Layout, table: &Parts, call: Call) -> Vec<Mark> {
        let marks = step(layout, table, call);
        let again = |mark: &Mark| match mark {
            Mark::Acted(_) => vec![*mark; 2],
            _ => vec![*mark],
        };
        marks.iter().flat_map(again).collect()
    }

    fn decides_nothing(layout: &mut Layout, table: &Parts, call: Call) -> Vec<Mark> {
        let mut marks = step(layout, table, call);
        marks.retain(|mark| !matches!(mark, Mark::Decided { .. }));
        marks
    }
}
