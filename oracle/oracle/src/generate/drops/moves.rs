//! What is done to a layout so that its states fill up: it is brought to hold a wanted number of them, and then come
//! calls that drop some, or just do not, by every way in which an action is run.
//!
//! Assumes: the image was accepted; else every call is refused and a trace would not end. Keys are known by the first
//! layer; where a held layer makes one something else, or nothing, the trace goes on from what it finds.

use super::super::layout::pen::Pen;
use crate::paper::image::Parts;
use crate::paper::layout::{Coord, ACTIONS, CODES, HOLD_TAP, MOST_QUEUED};

/// The numbers of states at which what may drop some comes.
const STANDS: [usize; 16] = [
    64, 64, 64, 64, 63, 63, 63, 63, 62, 62, 62, 62, 61, 60, 57, 50,
];

/// Ticks that a trace is ready to wait for a hold-tap.
const PATIENCE: u16 = 8;

/// Coordinates that no table has: their events are acted on and do nothing.
const NOWHERE: Coord = (9, 9);

/// Some calls over the image at hand.
pub fn trace(pen: &mut Pen, calls: usize) {
    let end = pen.counts.calls + calls;
    let mut hand = Hand::new(pen);
    while hand.pen.counts.calls < end {
        let wanted = hand.pen.random.pick(&STANDS);
        hand.stand_at(wanted);
        for _ in 0..hand.pen.random.among(1, 3) {
            hand.strike();
        }
        if hand.pen.random.once_in(10) {
            hand.release_all();
        }
    }
}

/// A hand on the keys of a table.
struct Hand<'a> {
    pen: &'a mut Pen,
    /// The keys that wait for nothing.
    closed: Vec<Key>,
    /// The keys that are a hold-tap or end in one, and its timeout.
    hold_taps: Vec<(Coord, u16)>,
}

#[derive(Clone, Copy)]
struct Key {
    at: Coord,
    /// How many states it adds.
    states: usize,
    /// Whether other keys stay what they are while it is held: its layers are all the first.
    steady: bool,
}

/// How many states a record adds when it is run; the timeout if it ends in a hold-tap.
fn measure(table: &Parts, record: u16) -> Result<usize, u16> {
    let number = usize::from(record);
    match table.records[number] {
        [2 | 5, ..] => Ok(1),
        [CODES, _, count, _] => Ok(count.into()),
        [ACTIONS, ..] => {
            let named = table.entries(number).iter();
            named.map(|&named| measure(table, named)).sum()
        }
        [HOLD_TAP, timeout, ..] => Err(timeout),
        _ => Ok(0),
    }
}

fn is_steady(table: &Parts, record: u16) -> bool {
    let number = usize::from(record);
    match table.records[number] {
        [5, layer, ..] => layer == 0,
        [ACTIONS, ..] => {
            let mut named = table.entries(number).iter();
            named.all(|&named| is_steady(table, named))
        }
        _ => true,
    }
}

impl<'a> Hand<'a> {
    fn new(pen: &'a mut Pen) -> Self {
        let table = pen.table().expect("an accepted image");
        let (mut closed, mut hold_taps) = (Vec::new(), Vec::new());
        for key in 0..table.rows * table.columns {
            let at = ((key / table.columns) as u8, (key % table.columns) as u8);
            let record = table.cells[key];
            match measure(table, record) {
                Ok(states) => closed.push(Key {
                    at,
                    states,
                    steady: is_steady(table, record),
                }),
                Err(timeout) => hold_taps.push((at, timeout)),
            }
        }
        Hand {
            pen,
            closed,
            hold_taps,
        }
    }

    fn held(&self) -> usize {
        self.pen.sizes().1
    }

    /// Ticks until nothing waits and nothing is queued; a key that would wait for long is released.
    fn settle(&mut self) {
        loop {
            match self.pen.waiting() {
                Some(waiting) if waiting.left > PATIENCE => {
                    self.pen.release(waiting.at);
                }
                None if self.pen.sizes().2 == 0 => break,
                _ => {
                    self.pen.tick();
                }
            }
        }
    }

    /// Comes to hold so many states, if the keys have them.
    fn stand_at(&mut self, wanted: usize) {
        self.settle();
        for _ in 0..60 {
            let held = self.held();
            if held == wanted {
                break;
            }
            if held > wanted {
                self.release_at_least(held - wanted);
            } else {
                self.add_at_most(wanted - held);
            }
        }
    }

    /// Presses a key that adds at least one state and at most so many, often as many as any; if it does not, under
    /// layers that are held, all are released.
    fn add_at_most(&mut self, most: usize) {
        let fits = |key: &&Key| key.steady && (1..=most).contains(&key.states);
        let mut fitting: Vec<Key> = self.closed.iter().filter(fits).copied().collect();
        if self.pen.random.once_in(2) {
            let longest = fitting.iter().map(|key| key.states).max();
            fitting.retain(|key| Some(key.states) == longest);
        }
        let before = self.held();
        if !fitting.is_empty() {
            let key = self.pen.random.pick(&fitting);
            self.pen.press(key.at);
            self.pen.tick();
        }
        if self.held() == before {
            self.release_all();
        }
    }

    fn down(&self) -> Vec<Coord> {
        self.pen.beside.down.iter().copied().collect()
    }

    fn release(&mut self, at: Coord) {
        self.pen.release(at);
        self.settle();
    }

    /// Releases the key with the fewest states that are at least so many; any if there is none.
    fn release_at_least(&mut self, fewest: usize) {
        let states = self
            .down()
            .into_iter()
            .map(|at| (self.pen.states_at(at), at));
        match states.filter(|(states, _)| *states >= fewest).min() {
            Some((_, at)) => self.release(at),
            None => self.release_one(),
        }
    }

    fn release_one(&mut self) {
        let down = self.down();
        if !down.is_empty() {
            let at = self.pen.random.pick(&down);
            self.release(at);
        }
    }

    fn release_all(&mut self) {
        for at in self.down() {
            self.release(at);
        }
    }

    fn strike(&mut self) {
        match self.pen.random.below(100) {
            0..=15 => self.press_closed(1),
            16..=23 => self.press_closed(2),
            24..=31 => self.by_time(),
            32..=45 => self.by_release(),
            46..=57 => self.by_queue(),
            58..=71 => self.by_queue_late(),
            72..=82 => self.seventeenth(),
            83..=86 => self.overflow(),
            87..=90 => self.cramped(),
            91..=95 => self.release_one(),
            _ => {
                self.pen.keycodes();
            }
        }
    }

    fn some_closed(&mut self) -> Coord {
        self.pen.random.pick(&self.closed).at
    }

    /// A hold-tap of a timeout up to this; any if there is none.
    fn some_hold_tap(&mut self, most: u16) -> (Coord, u16) {
        let fits = |(_, timeout): &&(Coord, u16)| *timeout <= most;
        let quick: Vec<(Coord, u16)> = self.hold_taps.iter().filter(fits).copied().collect();
        match quick.is_empty() {
            true => self.pen.random.pick(&self.hold_taps),
            false => self.pen.random.pick(&quick),
        }
    }

    /// Presses a key so many times, and ticks as many.
    fn press_closed(&mut self, times: usize) {
        let at = self.some_closed();
        for _ in 0..times {
            self.pen.press(at);
        }
        self.pen.ticks(times);
    }

    /// A hold-tap that becomes hold when its time is over.
    fn by_time(&mut self) {
        self.settle();
        let (at, _) = self.some_hold_tap(PATIENCE);
        self.pen.press(at);
        self.pen.tick();
        while self.pen.waiting().is_some_and(|w| w.left <= PATIENCE) {
            self.pen.tick();
        }
    }

    /// A hold-tap that is released while it waits.
    fn by_release(&mut self) {
        self.settle();
        let (at, _) = self.some_hold_tap(u16::MAX);
        self.pen.press(at);
        self.pen.tick();
        self.pen.release(at);
        if self.pen.random.once_in(2) {
            self.pen.tick();
        }
    }

    /// A hold-tap that is released before its press is acted on.
    fn by_queue(&mut self) {
        let (at, _) = self.some_hold_tap(u16::MAX);
        self.pen.press(at);
        self.pen.release(at);
        self.pen.tick();
        if self.pen.random.once_in(2) {
            self.settle();
        }
    }

    /// The same, with as many ticks between press and release as the timeout, or one or two more: events of no key keep
    /// the press in the queue.
    fn by_queue_late(&mut self) {
        self.settle();
        let (at, timeout) = self.some_hold_tap(PATIENCE);
        let apart = usize::from(timeout.min(PATIENCE)) + self.pen.random.below(3);
        for _ in 0..apart {
            self.pen.release(NOWHERE);
        }
        self.pen.press(at);
        self.pen.ticks(apart);
        self.pen.release(at);
        self.pen.tick();
    }

    /// Events until the queue is full, the first of them a press, and some more. A hold-tap that is pressed is often
    /// released behind it.
    fn fill_queue(&mut self) {
        let hold_tap = self.pen.random.once_in(2);
        let first = match hold_tap {
            true => self.some_hold_tap(u16::MAX).0,
            false => self.some_closed(),
        };
        self.pen.press(first);
        if hold_tap && !self.pen.random.once_in(3) {
            self.pen.release(first);
        }
        let more = self.pen.random.among(1, 4);
        let room = MOST_QUEUED.saturating_sub(self.pen.sizes().2);
        for _ in 0..room + more {
            let at = match self.pen.random.below(4) {
                0 => NOWHERE,
                1 => self.some_hold_tap(u16::MAX).0,
                _ => self.some_closed(),
            };
            match self.pen.random.once_in(4) {
                true => self.pen.release(at),
                false => self.pen.press(at),
            };
        }
    }

    /// A hold-tap that a seventeenth event makes hold; then the oldest event is acted on.
    fn seventeenth(&mut self) {
        self.settle();
        let (at, _) = self.some_hold_tap(u16::MAX);
        self.pen.press(at);
        self.pen.tick();
        self.fill_queue();
        self.leave_queue();
    }

    /// Seventeen events and more, whether something waits or not.
    fn overflow(&mut self) {
        self.fill_queue();
        self.leave_queue();
    }

    /// The queue is emptied, or stays as it is.
    fn leave_queue(&mut self) {
        if !self.pen.random.once_in(4) {
            self.settle();
        }
    }

    /// A call that is refused for its buffer, where it would drop a state; then with room.
    fn cramped(&mut self) {
        let at = self.some_closed();
        self.pen.press(at);
        let room = self.pen.random.pick(&[0, 32, 63, 63]);
        self.pen.room(room);
        self.pen.tick();
        self.pen.keycodes();
        self.pen.full_room();
        self.pen.tick();
    }
}
