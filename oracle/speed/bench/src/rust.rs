//! The Rust's side: keyberon driven by the bytes that the port's `pace` reads. What is counted is what runs in the
//! functions `counted_..`; what they are given is made before.
//!
//! Assumes: the input is one of `cases`, so its image is accepted and its codes are legal.

use super::tables::{self, code};
use keyberon::debounce::Debouncer;
use keyberon::key_code::{KbHidReport, KeyCode};
use keyberon::keyboard::Keyboard;
use keyberon::layout::{Event, Layout};

/// Bytes of the buffer that the calls write to.
const ROOM: usize = 384;

type Grid = [[bool; 16]; 8];

pub fn run(input: &[u8]) -> Option<Vec<u8>> {
    let (kind, script) = input.split_first()?;
    let mut out = vec![0; ROOM];
    match kind {
        0 => {
            let (image, calls) = script.split_at(tables::length(script));
            let mut layout = Layout::new(tables::layers(image));
            counted_calls(&mut layout, calls, &mut out);
        }
        1 => {
            let up: Grid = Default::default();
            let scans: Vec<Grid> = script.chunks_exact(128).map(grid).collect();
            counted_scans(&mut Debouncer::new(up, up, 5), &scans, &mut out);
        }
        2 => counted_codes(&codes(script), &mut out),
        3 => {
            let reports = script.chunks_exact(8);
            let reports: Vec<KbHidReport> =
                reports.map(|r| codes(r).into_iter().collect()).collect();
            counted_reports(&mut Keyboard::new(()), &reports, &mut out);
        }
        _ => (),
    }
    Some(out)
}

fn codes(bytes: &[u8]) -> Vec<KeyCode> {
    bytes.iter().map(|&byte| code(byte.into())).collect()
}

fn grid(scan: &[u8]) -> Grid {
    let mut rows: Grid = Default::default();
    for (place, &byte) in scan.iter().enumerate() {
        rows[place / 16][place % 16] = byte == 1;
    }
    rows
}

fn write(codes: impl Iterator<Item = KeyCode>, out: &mut [u8]) {
    for (place, code) in codes.enumerate() {
        out[place] = code as u8;
    }
}

/// The calls of a script, three bytes each.
#[inline(never)]
#[no_mangle]
fn counted_calls(layout: &mut Layout, script: &[u8], out: &mut [u8]) {
    for call in script.chunks_exact(3) {
        let (i, j) = (call[1], call[2]);
        match call[0] {
            0 => write(layout.event(Event::Release(i, j)), out),
            1 => write(layout.event(Event::Press(i, j)), out),
            _ => write(layout.tick(), out),
        }
    }
}

/// The scans, whose events are written three bytes each.
#[inline(never)]
#[no_mangle]
fn counted_scans(debouncer: &mut Debouncer<Grid>, scans: &[Grid], out: &mut [u8]) {
    for &scan in scans {
        for (place, event) in debouncer.events(scan).enumerate() {
            let bytes = match event {
                Event::Release(i, j) => [0, i, j],
                Event::Press(i, j) => [1, i, j],
            };
            out[3 * place..][..3].copy_from_slice(&bytes);
        }
    }
}

#[inline(never)]
#[no_mangle]
fn counted_codes(codes: &[KeyCode], out: &mut [u8]) {
    let report: KbHidReport = codes.iter().copied().collect();
    out[..8].copy_from_slice(report.as_bytes());
}

#[inline(never)]
#[no_mangle]
fn counted_reports(keyboard: &mut Keyboard<()>, reports: &[KbHidReport], out: &mut [u8]) {
    for (place, report) in reports.iter().enumerate() {
        out[place] = keyboard.set_keyboard_report(report.clone()).into();
    }
}
