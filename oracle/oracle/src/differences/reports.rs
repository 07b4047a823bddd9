//! The entries of codes, reports and the keyboard, and what one side has alone.
//!
//! Assumes: nothing.

use super::entry::{lines, Asked, Entry};
use crate::paper::image::Z;
use crate::{key_code, words};
use keyberon::action::{k, l};
use keyberon::hid::{HidDevice, ReportType};
use keyberon::key_code::{KbHidReport, KeyCode};
use keyberon::keyboard::{Keyboard, Leds};
use keyberon::layout::Event;
use std::cell::RefCell;
use std::rc::Rc;

pub fn codes() -> Vec<Entry> {
    let reserved = [
        KeyCode::MediaPlayPause,
        KeyCode::MeidaCoffee,
        KeyCode::MediaCalc,
    ];
    let named = reserved.map(|code| {
        let report: KbHidReport = [code].into_iter().collect();
        let report = words::to_hex(report.as_bytes());
        format!("{code:?}, {:02x}: report {report}", code as u8)
    });
    let asked = ["codes e8", "codes f9", "codes fb"];
    let unheld = (0..=255)
        .filter(|&byte| key_code::of_byte(byte).is_none())
        .count();
    vec![
        Entry::new("codes-reserved", named.to_vec(), lines(&asked)),
        Entry::unwritable(
            "codes-illegal",
            &format!("KeyCode has no case for {unheld} of the 256 bytes"),
            lines(&["codes a5", "codes df04", "codes ff"]),
        ),
        Entry::unwritable(
            "report-bytes",
            "KbHidReport is made of codes alone, and its second byte is always 0",
            lines(&["report 0001000500000000", "get 1 0"]),
        ),
    ]
}

/// Lights that keep what they were told, in order.
#[derive(Clone, Default)]
struct Told(Rc<RefCell<Vec<(&'static str, bool)>>>);

impl Leds for Told {
    fn num_lock(&mut self, status: bool) {
        self.0.borrow_mut().push(("num", status));
    }
    fn caps_lock(&mut self, status: bool) {
        self.0.borrow_mut().push(("caps", status));
    }
    fn scroll_lock(&mut self, status: bool) {
        self.0.borrow_mut().push(("scroll", status));
    }
    fn compose(&mut self, status: bool) {
        self.0.borrow_mut().push(("compose", status));
    }
    fn kana(&mut self, status: bool) {
        self.0.borrow_mut().push(("kana", status));
    }
}

pub fn keyboard() -> Vec<Entry> {
    vec![requests(), report_type(), lights(), idle()]
}

fn got(kind: ReportType) -> String {
    let mut keyboard = Keyboard::new(());
    let report = keyboard.get_report(kind, 0).map(words::to_hex);
    format!("get_report({kind:?}, 0): {report:?}")
}

fn requests() -> Entry {
    let set = |kind: ReportType, id: u8, data: &[u8]| {
        let done = Keyboard::new(()).set_report(kind, id, data);
        format!("set_report({kind:?}, {id}, {data:?}): {done:?}")
    };
    let rust = vec![
        got(ReportType::Output),
        set(ReportType::Input, 0, &[1]),
        set(ReportType::Output, 1, &[1]),
        set(ReportType::Output, 0, &[1, 0]),
    ];
    let asked = ["get 2 0", "set 1 0 01", "set 2 1 01", "set 2 0 0100"];
    Entry::new("request", rust, lines(&asked))
}

fn report_type() -> Entry {
    let keyboard = Keyboard::new(());
    let (subclass, protocol) = (keyboard.subclass(), keyboard.protocol());
    let numbers = [subclass as u8, protocol as u8];
    let rust = vec![
        got(ReportType::Input),
        got(ReportType::Reserved(1)),
        format!("subclass {subclass:?}, protocol {protocol:?}: as bytes {numbers:?}"),
    ];
    Entry::new("report-type", rust, lines(&["get 1 0"]))
        .noting("subclass and protocol answer the byte 1")
}

fn lights() -> Entry {
    let told = Told::default();
    let mut keyboard = Keyboard::new(told.clone());
    let done = keyboard.set_report(ReportType::Output, 0, &[0b101]);
    let rust = format!(
        "set_report(Output, 0, [5]): {done:?}, told {:?}",
        told.0.borrow()
    );
    Entry::new("leds", vec![rust], lines(&["set 2 0 05"]))
}

fn idle() -> Entry {
    let asked = lines(&["rate 1", "clock 3", "clock 1"]);
    Entry::unwritable("idle", "the keyboard has no rate and no clock", asked)
}

pub fn one_side_alone() -> Vec<Entry> {
    let turned = Event::Press(1, 2).transform(|i, j| (j, i));
    let codes = key_code::bytes(k(KeyCode::A).key_codes());
    let layer = l(3).layer();
    let rust = format!("transform: {turned:?}; key_codes: {codes:?}; layer: {layer:?}");
    let areas = Asked {
        label: "areas: none, Z".to_string(),
        line: format!("areas - {}", words::to_hex(&Z)),
    };
    let mut here = vec![areas, Asked::image("image Z".to_string(), &Z)];
    here.extend(lines(&["p 0 0", "r 0 0", "t"]));
    vec![
        Entry::new("left-out", vec![rust], vec![]).noting("none of these"),
        Entry::unwritable("added", "it has none of these", here),
    ]
}
