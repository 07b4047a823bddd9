//! `oracle incident`: the calls of a shift on the original Rust, with what happens around it when it panics. A panic
//! ends the firmware; the watchdog starts it anew, and the first scan finds the keys that are still down pressed.
//!
//! Assumes: the table is accepted or breaks the open rule alone. A scan reports the keys that are down row by row,
//! as the debouncer does from a picture of all keys up.

use crate::paper::image::{self, Parts};
use crate::paper::layout::{Coord, Event};
use crate::table::Tabled;
use crate::{guard, words};
use keyberon::key_code::KbHidReport;
use keyberon::layout as rust;
use std::collections::{BTreeMap, BTreeSet};
use std::fmt::Write;
use std::path::Path;
use std::{fs, io};

/// The table of the incident: 1 layer of 1 by 8 keys. CHEMICAL at (0,0) is a hold-tap (record 10) whose hold is a
/// hold-tap (record 9); ADD at (0,1) is the key code 57; the others are the digits 1 to 6.
const NESTED: [u16; 60] = [
    1, 1, 1, 8, 11, 0, 32, 120, // header
    10, 2, 3, 4, 5, 6, 7, 8, // cells
    2, 0x06, 0, 0, // 0: CHEMICAL, tapped
    2, 0x3A, 0, 0, // 1: CHEMICAL, held
    2, 0x57, 0, 0, // 2: ADD
    2, 0x1E, 0, 0, 2, 0x1F, 0, 0, 2, 0x20, 0, 0, // 3, 4, 5: digits
    2, 0x21, 0, 0, 2, 0x22, 0, 0, 2, 0x23, 0, 0, // 6, 7, 8: digits
    7, 10, 1, 0, // 9: a hold-tap, all that CHEMICAL may be
    7, 10, 9, 0, // 10: CHEMICAL; its hold is record 9
];

/// The words of a record.
const RECORD: usize = 4;

/// ADD is pressed and held; CHEMICAL is touched; a cloth goes over the digits, four events a tick, until the
/// seventeenth event comes; then all keys are let go, ADD last.
const LINES: &str = "\
p 0 1\nt\np 0 0\nt
p 0 2\nr 0 2\np 0 3\nr 0 3\nt\np 0 4\nr 0 4\np 0 5\nr 0 5\nt
p 0 6\nr 0 6\np 0 7\nr 0 7\nt\np 0 2\nr 0 2\np 0 3\nr 0 3\nt
p 0 4
r 0 4\nr 0 0\nt\nt\nt\nt\nt\nt\nt\nt\nt\nt\nt\nt\nt\nt\nt\nt
r 0 1\nt\n";

/// The incident's table and a permitted one, each with the incident's lines.
pub fn both() -> io::Result<String> {
    guard::silence();
    let nested = shift(&bytes(&NESTED), LINES)?;
    let permitted = shift(&permitted(), LINES)?;
    Ok(format!("{nested}\n{permitted}"))
}

/// Writes both tables and the lines to a folder, so that other programs are given the same.
pub fn write_files(folder: &str) -> io::Result<()> {
    let folder = Path::new(folder);
    fs::write(folder.join("incident.img"), bytes(&NESTED))?;
    fs::write(folder.join("permitted.img"), permitted())?;
    fs::write(folder.join("incident.txt"), LINES)
}

/// The incident's table without its last record: CHEMICAL is record 9, whose hold is a key code.
fn permitted() -> Vec<u8> {
    let mut words = NESTED[..NESTED.len() - RECORD].to_vec();
    let (records, list_offset, chemical) = (4, 7, 8);
    words[records] -= 1;
    words[list_offset] -= 2 * RECORD as u16;
    words[chemical] -= 1;
    bytes(&words)
}

/// A table and lines from files.
pub fn of_files(table: &str, lines: &str) -> io::Result<String> {
    guard::silence();
    let named = |file: &str, error: io::Error| io::Error::other(format!("{file}: {error}"));
    let bytes = fs::read(table).map_err(|error| named(table, error))?;
    let lines = fs::read_to_string(lines).map_err(|error| named(lines, error))?;
    shift(&bytes, &lines)
}

fn bytes(words: &[u16]) -> Vec<u8> {
    words.iter().flat_map(|word| word.to_le_bytes()).collect()
}

/// The lines of a shift and their reports, as text.
fn shift(table: &[u8], lines: &str) -> io::Result<String> {
    let verdict = match image::check(table) {
        Ok(_) => "accepted".to_string(),
        Err(refusal) => refusal.to_string(),
    };
    let parts = image::check_but_nested(table).map_err(|refusal| {
        io::Error::other(format!("the Rust cannot be given this table: {refusal}"))
    })?;
    let mut shift = Shift::new(&parts);
    for line in lines.lines() {
        let call = call(line).ok_or_else(|| io::Error::other(format!("not a call: {line}")))?;
        shift.take(call);
    }
    let said = format!("table: {verdict} by the rules of the image; the Rust takes it\n");
    Ok(said + &shift.said + &shift.typed_text())
}

/// An event, or nothing for a tick.
type Call = Option<Event>;

fn call(line: &str) -> Option<Call> {
    let words = words::split(line.as_bytes())?;
    match words.as_slice() {
        [b"t"] => Some(None),
        [b"p", i, j] => Some(Some(Event::Press((words::byte(i)?, words::byte(j)?)))),
        [b"r", i, j] => Some(Some(Event::Release((words::byte(i)?, words::byte(j)?)))),
        _ => None,
    }
}

/// A layout at work, and what is known around it.
struct Shift<'a> {
    table: &'a Parts,
    layout: Tabled,
    /// The keys that a finger or a cloth is on.
    down: BTreeSet<Coord>,
    /// The codes of the last report, without the modifiers.
    keys: BTreeSet<u8>,
    /// How often each code came into the report.
    typed: BTreeMap<u8, usize>,
    said: String,
}

impl<'a> Shift<'a> {
    fn new(table: &'a Parts) -> Self {
        Shift {
            table,
            layout: Tabled::new(table),
            down: BTreeSet::new(),
            keys: BTreeSet::new(),
            typed: BTreeMap::new(),
            said: String::new(),
        }
    }

    fn take(&mut self, call: Call) {
        match call {
            Some(Event::Press(at)) => self.down.insert(at),
            Some(Event::Release(at)) => self.down.remove(&at),
            None => false,
        };
        if let Err(message) = self.run(call) {
            self.say(&format!("{:<8}panic: {message}", text(call)));
            self.start_anew();
        }
    }

    /// One call on the Rust; its report is told, or the panic's message is given back.
    fn run(&mut self, call: Call) -> Result<(), String> {
        let report = self.layout.attempt(|layout| {
            words::to_hex(
                match call {
                    Some(Event::Press((i, j))) => report(layout.event(rust::Event::Press(i, j))),
                    Some(Event::Release((i, j))) => {
                        report(layout.event(rust::Event::Release(i, j)))
                    }
                    None => report(layout.tick()),
                }
                .as_bytes(),
            )
        })?;
        self.say(&format!("{:<8}{report}", text(call)));
        let report = words::hex(report.as_bytes()).unwrap_or_default();
        let keys: BTreeSet<u8> = report[2..]
            .iter()
            .copied()
            .filter(|&key| key != 0)
            .collect();
        for &code in keys.difference(&self.keys) {
            *self.typed.entry(code).or_default() += 1;
        }
        self.keys = keys;
        Ok(())
    }

    /// What the watchdog does: a fresh layout, and a scan that finds the keys that are down. With more of them than
    /// the queue holds that scan may panic too; then the layout is fresh once more, and the scan is not tried again.
    fn start_anew(&mut self) {
        self.say(
            "        the watchdog starts the firmware anew; its first scan finds these keys down:",
        );
        self.layout = Tabled::new(self.table);
        self.keys.clear();
        for at in self.down.clone() {
            let press = Some(Event::Press(at));
            if let Err(message) = self.run(press) {
                self.say(&format!("{:<8}panic: {message}", text(press)));
                self.layout = Tabled::new(self.table);
                break;
            }
        }
        self.say("        and the shift goes on:");
    }

    fn say(&mut self, line: &str) {
        self.said.push_str(line);
        self.said.push('\n');
    }

    fn typed_text(&self) -> String {
        let mut text = "typed:".to_string();
        for (code, times) in &self.typed {
            let plural = if *times == 1 { "" } else { "s" };
            write!(text, " {code:02x} {times} time{plural},").expect("a string takes any text");
        }
        text.trim_end_matches(',').to_string() + "\n"
    }
}

fn report(codes: impl Iterator<Item = keyberon::key_code::KeyCode>) -> KbHidReport {
    codes.collect()
}

fn text(call: Call) -> String {
    match call {
        Some(Event::Press((i, j))) => format!("p {i} {j}"),
        Some(Event::Release((i, j))) => format!("r {i} {j}"),
        None => "t".to_string(),
    }
}

#[cfg(test)]
mod tests {
    use super::*;

    #[test]
    fn the_rust_panics_and_types_add_twice() {
        let said = shift(&bytes(&NESTED), LINES).expect("the Rust takes the table");
        assert!(
            said.starts_with("table: refused 8 10 by the rules of the image; the Rust takes it\n")
        );
        let panic = "p 0 4   panic: assertion failed: self.waiting.is_none()\n";
        assert_eq!(said.matches("panic").count(), 1);
        assert!(
            said.contains(panic) && said.contains(" 57 2 times"),
            "{said}"
        );
    }

    #[test]
    fn on_a_permitted_table_add_is_typed_once() {
        let said = shift(&permitted(), LINES).expect("the Rust takes the table");
        assert!(said.starts_with("table: accepted by the rules"));
        assert!(
            !said.contains("panic") && said.ends_with(" 57 1 time\n"),
            "{said}"
        );
    }

    #[test]
    fn other_faults_and_lines_are_refused() {
        assert!(shift(&bytes(&NESTED)[..119], LINES).is_err());
        assert!(shift(&bytes(&NESTED), "p 0\n").is_err());
    }
}
