//! The comparison: each script is run by both sides, and the first difference ends it, shown by the
//! shortest script that still has one.
//!
//! Assumes: both sides read a script from standard input and print an answer a line; this program itself
//! is the Rust's side.

pub mod names;
pub mod panel;
mod promise;
mod shrink;
mod side;

use crate::generate::Kind;
use crate::script::Script;
use side::{Difference, Sides};
use std::process::ExitCode;

/// How many lines of a script are shown: a difference that needs more is not read by eye.
const MOST_SHOWN: usize = 200;

/// Runs all scripts; the exit code is 0 for no difference, 1 for one, 2 where a side could not be run.
pub fn run(name: &str, seed: u64, scripts: &mut dyn Kind, command: &[&str]) -> ExitCode {
    match run_all(name, seed, scripts, command) {
        Ok(true) => ExitCode::SUCCESS,
        Ok(false) => ExitCode::from(1),
        Err(error) => {
            eprintln!("compare: {name}: {error}");
            ExitCode::from(2)
        }
    }
}

fn run_all(
    name: &str,
    seed: u64,
    scripts: &mut dyn Kind,
    command: &[&str],
) -> std::io::Result<bool> {
    let own = std::env::current_exe()?;
    let sides = Sides {
        ours: command.iter().map(|word| word.to_string()).collect(),
        oracle: vec![own.to_string_lossy().into_owned(), "replay".to_string()],
    };
    let mut kept = 0;
    while let Some(script) = scripts.next() {
        match sides.held(&script, true)? {
            Ok(promises) => kept += promises,
            Err(_) => {
                let (shortest, difference) = shrink::shortest(&sides, script)?;
                show(name, seed, &shortest, difference);
                return Ok(false);
            }
        }
    }
    if kept != scripts.equal_calls() {
        let wanted = scripts.equal_calls();
        let text = format!(
            "equal calls over {wanted} pairs of tables, of which {kept} were held together"
        );
        return Err(std::io::Error::other(text));
    }
    println!("compare: {name}: {}{}", scripts.summary(0), told(kept));
    Ok(true)
}

/// What the closing line says of equal calls.
fn told(kept: usize) -> String {
    match kept {
        0 => String::new(),
        _ => {
            format!("; the port's own answers to the calls over the two of {kept} pairs: the same")
        }
    }
}

fn show(name: &str, seed: u64, script: &Script, difference: Option<Difference>) {
    println!("compare: {name}: a difference, seed {seed}. The shortest script found:");
    let hidden = script.lines.len().saturating_sub(MOST_SHOWN);
    if hidden > 0 {
        println!("  ({hidden} lines come before these; the seed makes them again)");
    }
    for line in &script.lines[hidden..] {
        println!("  {}", line.escape_ascii());
    }
    if !script.closed {
        println!("  (the last line has no newline)");
    }
    match difference {
        Some(found) => {
            if found.line < script.owed() {
                println!("at its line {}", found.line + 1);
            } else {
                println!("after its last line");
            }
            println!("  ours:   {}", found.ours);
            println!("  oracle: {}", found.oracle);
        }
        None => {
            println!("run once more, it showed no difference: a side does not answer alike twice")
        }
    }
}
