//! The oracle: answers the port's scripts with the original Rust, makes scripts from seeds, and compares
//! the two sides. This file reads the command line.
//!
//! Assumes: it is built with overflow checks and with panics that unwind, as the workspace says.

mod answers;
mod compare;
mod differences;
mod drains;
mod generate;
mod guard;
mod incident;
mod key_code;
mod paper;
mod random;
mod script;
mod table;
mod words;

use answers::{panel, replay};
use std::io::{self, Write};
use std::process::ExitCode;

const USAGE: &str = "\
usage: oracle replay                             answer the script on standard input
       oracle panel IMAGE                        print what panel must, lines on standard input
       oracle names                              print the names and values of the key codes
       oracle generate KIND COUNT SEED           print a script; KIND is: codes, image, areas,
                                                 texts, changes, debounce, layout, states, drops,
                                                 keyboard
       oracle compare-names FILE..               hold the constants in these .rt files to the names
       oracle compare KIND N SEED -- COMMAND..   hold COMMAND's answers to the oracle's
       oracle drains N SEED                      drain N layouts and hold each to demand 3
       oracle differences [-- COMMAND..]         run the entries of docs/DIFFERENCES.md on the Rust, and ask
                                                 COMMAND, or the second opinion, for the port's answers
       oracle incident [TABLE LINES]             run the incident on the Rust, restart included, and the same
                                                 on a permitted table; or the calls of LINES on an image
       oracle incident-files FOLDER              write the incident's two tables and its lines to FOLDER
       oracle compare-panel N SEED -- COMMAND..  hold what COMMAND prints to what panel must";

fn main() -> ExitCode {
    let args: Vec<String> = std::env::args().skip(1).collect();
    let words: Vec<&str> = args.iter().map(String::as_str).collect();
    let done = match words.as_slice() {
        ["-h" | "--help"] => print(format!("{USAGE}\n").as_bytes()),
        ["replay"] => replay::run(),
        ["panel", image] => panel::run(image),
        ["names"] => print(key_code::names().as_bytes()),
        ["generate", kind, count, seed] => print_script(kind, count, seed),
        ["incident"] => incident::both().and_then(|text| print(text.as_bytes())),
        ["incident-files", folder] => incident::write_files(folder),
        ["incident", table, lines] => {
            incident::of_files(table, lines).and_then(|text| print(text.as_bytes()))
        }
        ["compare-names", files @ ..] if !files.is_empty() => return compare::names::run(files),
        ["compare", kind, n, seed, "--", command @ ..] if !command.is_empty() => {
            return run_compare(kind, n, seed, command)
        }
        ["differences"] => return differences::run(&[]),
        ["differences", "--", command @ ..] if !command.is_empty() => {
            return differences::run(command)
        }
        ["drains", n, seed] => return run_drains(n, seed),
        ["compare-panel", n, seed, "--", command @ ..] if !command.is_empty() => {
            return run_compare_panel(n, seed, command)
        }
        _ => return usage(),
    };
    match done {
        Ok(()) => ExitCode::SUCCESS,
        Err(error) => {
            eprintln!("oracle: {error}");
            ExitCode::from(2)
        }
    }
}

fn usage() -> ExitCode {
    eprintln!("{USAGE}");
    ExitCode::from(2)
}

fn print(bytes: &[u8]) -> io::Result<()> {
    io::stdout().lock().write_all(bytes)
}

fn print_script(kind: &str, count: &str, seed: &str) -> io::Result<()> {
    let numbers = (count.parse(), seed.parse());
    let (Ok(count), Ok(seed)) = numbers else {
        return Err(io::Error::other("COUNT and SEED are whole numbers"));
    };
    match generate::sample(kind, count, seed) {
        Some(script) => print(&script.bytes()),
        None => Err(io::Error::other(format!(
            "no kind of script is called {kind}"
        ))),
    }
}

fn run_compare(kind: &str, n: &str, seed: &str, command: &[&str]) -> ExitCode {
    let (Ok(count), Ok(number)) = (n.parse(), seed.parse()) else {
        return usage();
    };
    match generate::scripts(kind, count, number) {
        Some(mut scripts) => compare::run(kind, number, scripts.as_mut(), command),
        None => usage(),
    }
}

fn run_drains(n: &str, seed: &str) -> ExitCode {
    match (n.parse(), seed.parse()) {
        (Ok(count), Ok(number)) => drains::run(count, number),
        _ => usage(),
    }
}

fn run_compare_panel(n: &str, seed: &str, command: &[&str]) -> ExitCode {
    match (n.parse(), seed.parse()) {
        (Ok(count), Ok(number)) => compare::panel::run(count, number, command),
        _ => usage(),
    }
}
