//! `oracle differences`: the entries of docs/DIFFERENCES.md by their names, each run on the Rust and asked of the port.
//!
//! Assumes: what is asked is a line of `replay`. The port's answers are those of the command that is given; without
//! one the second opinion answers, which is this program's own `replay`.

mod entry;
mod foretold;
mod reports;
mod scans;
mod tables;
mod trees;

use crate::guard;
use entry::{Asked, Entry};
use std::io::{self, Write};
use std::process::{Command, ExitCode, Stdio};

/// The entries in the document's order.
fn entries() -> Vec<Entry> {
    let groups = [
        reports::codes(),
        scans::entries(),
        tables::nested(),
        tables::limits(),
        tables::shapes(),
        reports::keyboard(),
        reports::one_side_alone(),
    ];
    groups.into_iter().flatten().collect()
}

/// Prints every entry. The exit code is 1 if the command answers otherwise than the second opinion, 2 if it could not
/// be run.
pub fn run(command: &[&str]) -> ExitCode {
    guard::silence();
    match print_all(command) {
        Ok(true) => ExitCode::SUCCESS,
        Ok(false) => ExitCode::from(1),
        Err(error) => {
            eprintln!("oracle: differences: {error}");
            ExitCode::from(2)
        }
    }
}

fn print_all(command: &[&str]) -> io::Result<bool> {
    let own = std::env::current_exe()?;
    let own = [own.to_string_lossy().into_owned(), "replay".to_string()];
    let given: Vec<String> = command.iter().map(|word| word.to_string()).collect();
    let mut alike = true;
    for entry in entries() {
        let judged = answers(&own, &entry.here)?;
        let mut text = entry.text(&judged);
        if !given.is_empty() {
            let answered = answers(&given, &entry.here)?;
            if answered != judged {
                alike = false;
                text = entry.text(&answered) + &format!("  !     the second opinion: {judged:?}\n");
            }
        }
        io::stdout().lock().write_all(text.as_bytes())?;
    }
    Ok(alike)
}

/// A command's answers to an entry's lines, each entry by itself.
fn answers(command: &[String], asked: &[Asked]) -> io::Result<Vec<String>> {
    if asked.is_empty() {
        return Ok(Vec::new());
    }
    let named = |error: io::Error| io::Error::other(format!("{}: {error}", command[0]));
    let mut child = Command::new(&command[0])
        .args(&command[1..])
        .stdin(Stdio::piped())
        .stdout(Stdio::piped())
        .spawn()
        .map_err(named)?;
    let script: String = asked
        .iter()
        .map(|asked| asked.line.clone() + "\n")
        .collect();
    let mut input = child.stdin.take().expect("the child's input is piped");
    // a child that does not read ends with too few answers, which is told below
    drop(input.write_all(script.as_bytes()));
    drop(input);
    let output = child.wait_with_output().map_err(named)?;
    let said = String::from_utf8_lossy(&output.stdout).into_owned();
    let answers: Vec<String> = said.lines().map(str::to_string).collect();
    if !output.status.success() || answers.len() != asked.len() {
        let (wanted, got) = (asked.len(), answers.len());
        let told = format!("{wanted} answers wanted, {got} given, {}", output.status);
        return Err(named(io::Error::other(told)));
    }
    Ok(answers)
}

#[cfg(test)]
mod tests {
    use super::entry::lines;
    use super::*;
    use crate::answers::replay;
    use crate::script::Script;

    /// What the command prints, from the second opinion.
    fn printed() -> String {
        let text = |entry: &Entry| {
            let lines = entry
                .here
                .iter()
                .map(|asked| asked.line.clone().into_bytes());
            entry.text(&replay::answers(&Script::new(lines.collect())))
        };
        entries().iter().map(text).collect()
    }

    #[test]
    fn every_outcome_is_as_it_was() {
        let wanted = include_str!("outcomes.txt");
        let printed = printed();
        for (got, wanted) in printed.lines().zip(wanted.lines()) {
            assert_eq!(got, wanted);
        }
        assert_eq!(printed, wanted);
    }

    /// The document's entries are its table rows that begin with a name.
    #[test]
    fn the_document_has_the_names_that_are_printed() {
        let path = concat!(env!("CARGO_MANIFEST_DIR"), "/../../docs/DIFFERENCES.md");
        let document = std::fs::read_to_string(path).expect("the document");
        let rows = document.lines().filter_map(|line| line.strip_prefix("| `"));
        let named: Vec<&str> = rows.filter_map(|row| row.split('`').next()).collect();
        let outcomes = include_str!("outcomes.txt").lines();
        let printed: Vec<&str> = outcomes.filter(|line| !line.starts_with(' ')).collect();
        assert_eq!(named, printed);
    }

    #[test]
    fn a_command_owes_an_answer_to_each_line() {
        let command = |words: &[&str]| {
            words
                .iter()
                .map(|word| word.to_string())
                .collect::<Vec<_>>()
        };
        let asked = lines(&["a", "b"]);
        assert_eq!(
            answers(&command(&["cat"]), &asked).expect("cat runs"),
            ["a", "b"]
        );
        assert!(answers(&command(&["head", "-n", "1"]), &asked).is_err());
        assert!(answers(&command(&["false"]), &asked).is_err());
        assert!(answers(&command(&["no such command"]), &asked).is_err());
    }
}
