//! What is counted, the Rust's side of it, and what is shown of the counts. This file reads the command line;
//! `oracle/speed/run` is what calls it.
//!
//! Assumes: an input is one that `input` wrote, and a file of counts one that `oracle/speed/run` wrote.

mod calls;
mod case;
mod cases;
mod checked;
mod counts;
mod draw;
mod fill;
mod rust;
mod tables;

use counts::Counts;
use std::io::{self, Write};
use std::process::ExitCode;

const USAGE: &str = "\
usage: bench cases                  print the cases, a line each: part, case, size
       bench input N before|after   print what `pace` reads for case N, without its last call or with it
       bench run FILE               run that input on keyberon, print the buffer
       bench draw COUNTS            print the picture of the counts
       bench fill COUNTS FILE       print FILE with its tables made anew from the counts";

fn main() -> ExitCode {
    let args: Vec<String> = std::env::args().skip(1).collect();
    let words: Vec<&str> = args.iter().map(String::as_str).collect();
    match answer(&words) {
        Some(bytes) if io::stdout().write_all(&bytes).is_ok() => ExitCode::SUCCESS,
        _ => {
            eprintln!("{USAGE}");
            ExitCode::from(2)
        }
    }
}

fn read(file: &str) -> Option<String> {
    std::fs::read_to_string(file).ok()
}

fn answer(words: &[&str]) -> Option<Vec<u8>> {
    match words {
        ["cases"] => Some(cases::names().into_bytes()),
        ["input", n, "before"] => Some(cases::all().get(n.parse::<usize>().ok()?)?.before.clone()),
        ["input", n, "after"] => Some(cases::all().get(n.parse::<usize>().ok()?)?.after.clone()),
        ["run", file] => rust::run(&std::fs::read(file).ok()?),
        ["draw", counts] => Some(draw::picture(&Counts::read(&read(counts)?)).into_bytes()),
        ["fill", counts, file] => {
            let counts = Counts::read(&read(counts)?);
            Some(fill::filled(&read(file)?, &counts).into_bytes())
        }
        _ => None,
    }
}
