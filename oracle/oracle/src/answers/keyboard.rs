//! The lines of the keyboard: `report`, `get`, `set` and `descriptor` over keyberon's keyboard record, `rate`, `idling`
//! and `clock` over the paper's idle clock beside it.
//!
//! Assumes: a fresh keyboard has a zero report, all LEDs off and idle rate 0.

use super::Adapter;
use crate::guard::Guarded;
use crate::paper::idle::Idle;
use crate::words;
use keyberon::hid::{HidDevice, ReportType};
use keyberon::key_code::KbHidReport;
use keyberon::keyboard::{Keyboard, Leds};
use std::cell::Cell;
use std::rc::Rc;

/// The number of a refused request.
const REQUEST: u8 = 14;

/// The five LEDs as last set: num, caps, scroll, compose, kana. Shared with the keyboard, which keeps its
/// own handle to itself.
#[derive(Clone, Default)]
struct Flags(Rc<[Cell<bool>; 5]>);

impl Leds for Flags {
    fn num_lock(&mut self, status: bool) {
        self.0[0].set(status);
    }
    fn caps_lock(&mut self, status: bool) {
        self.0[1].set(status);
    }
    fn scroll_lock(&mut self, status: bool) {
        self.0[2].set(status);
    }
    fn compose(&mut self, status: bool) {
        self.0[3].set(status);
    }
    fn kana(&mut self, status: bool) {
        self.0[4].set(status);
    }
}

impl Flags {
    fn digits(&self) -> String {
        let digit = |flag: &Cell<bool>| if flag.get() { '1' } else { '0' };
        self.0.iter().map(digit).collect()
    }
}

pub struct Board {
    keyboard: Guarded<Keyboard<Flags>>,
    flags: Flags,
    idle: Idle,
}

impl Default for Board {
    fn default() -> Self {
        let flags = Flags::default();
        Board {
            keyboard: Guarded::new(Keyboard::new(flags.clone())),
            flags,
            idle: Idle::default(),
        }
    }
}

impl Adapter for Board {
    fn answer(&mut self, command: &[u8], rest: &[&[u8]]) -> Option<String> {
        match (command, rest) {
            (b"report", [bytes]) => {
                let bytes: [u8; 8] = words::hex(bytes)?.try_into().ok()?;
                Some(self.report(bytes))
            }
            (b"get", [kind, id]) => Some(self.get(words::byte(kind)?, words::byte(id)?)),
            (b"set", [kind, id, data]) => {
                let data = words::hex(data)?;
                Some(self.set(words::byte(kind)?, words::byte(id)?, &data))
            }
            (b"descriptor", []) => Some(self.descriptor()),
            _ => self.clock_answer(command, rest),
        }
    }
}

impl Board {
    /// The lines of the idle clock.
    fn clock_answer(&mut self, command: &[u8], rest: &[&[u8]]) -> Option<String> {
        match (command, rest) {
            (b"rate", [rate]) => {
                self.idle.rate = words::byte(rate)?;
                self.idle.start();
                Some("rate".to_string())
            }
            (b"idling", [rate, count]) => {
                let (rate, count) = (words::byte(rate)?, words::number(count)?);
                self.idle = Idle { rate, count };
                Some(words::line(command, rest))
            }
            (b"clock", [calls]) => {
                let due = (0..words::number(calls)?)
                    .filter(|_| self.idle.clock())
                    .count();
                Some(format!("due {due} count {}", self.idle.count))
            }
            _ => None,
        }
    }

    fn descriptor(&mut self) -> String {
        self.keyboard.answer(|keyboard| {
            format!("descriptor {}", words::to_hex(keyboard.report_descriptor()))
        })
    }

    fn report(&mut self, bytes: [u8; 8]) -> String {
        // Safety: the report is a struct of nothing but these eight bytes, and any bytes are a report. The
        // Rust builds reports from key codes alone; the port takes whatever bytes its caller has.
        let report = unsafe { std::mem::transmute::<[u8; 8], KbHidReport>(bytes) };
        let idle = &mut self.idle;
        self.keyboard.answer(|keyboard| {
            let changed = keyboard.set_keyboard_report(report);
            if changed {
                idle.start();
            }
            format!("changed {}", u8::from(changed))
        })
    }

    fn get(&mut self, kind: u8, id: u8) -> String {
        self.keyboard.answer(
            |keyboard| match keyboard.get_report(ReportType::from(kind), id) {
                Ok(report) => format!("0 {}", words::to_hex(report)),
                Err(()) => format!("{REQUEST} {}", words::to_hex(&[0; 8])),
            },
        )
    }

    fn set(&mut self, kind: u8, id: u8, data: &[u8]) -> String {
        let flags = &self.flags;
        self.keyboard.answer(|keyboard| {
            let done = keyboard.set_report(ReportType::from(kind), id, data);
            let number = if done.is_ok() { 0 } else { REQUEST };
            format!("{number} leds {}", flags.digits())
        })
    }
}

#[cfg(test)]
mod tests {
    use super::*;

    #[test]
    fn reports_and_requests() {
        let mut board = Board::default();
        assert_eq!(board.report([0; 8]), "changed 0");
        assert_eq!(board.report([2, 9, 4, 0, 0xff, 0, 0, 0]), "changed 1");
        assert_eq!(board.get(1, 7), "0 02090400ff000000");
        assert_eq!(board.get(2, 0), "14 0000000000000000");
        assert_eq!(board.set(2, 0, &[0b1110_1001]), "0 leds 10010");
        assert_eq!(board.set(2, 0, &[]), "14 leds 10010");
        assert_eq!(board.set(2, 1, &[0]), "14 leds 10010");
        assert_eq!(board.set(1, 0, &[0]), "14 leds 10010");
    }
}
