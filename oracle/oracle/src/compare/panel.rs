//! `oracle compare-panel`: runs the port's program `panel` on random tables and traces, each in a folder with its
//! `table.img`, and holds what it prints to what `oracle panel` does.
//!
//! Assumes: the command reads lines from standard input and `table.img` from the folder it is run in.

use crate::answers::panel::answers;
use crate::random::Random;
use crate::{generate, guard, words};
use std::fs::{self, File};
use std::io;
use std::path::Path;
use std::process::{Command, ExitCode, Stdio};

/// Lines that say nothing, each for another reason.
const ODD: [&[u8]; 16] = [
    b"",
    b" ",
    b"t ",
    b" t",
    b"tt",
    b"T",
    b"k",
    b"p 0",
    b"p 0  0",
    b"p 256 0",
    b"r 0 0 ",
    b"r 0000 0",
    b"t\r",
    b"p \xb2 0",
    b"\0",
    b"\xff\xfe",
];

/// A table, good or bad, and what is typed.
struct Case {
    image: Vec<u8>,
    input: Vec<u8>,
}

/// The cases of a kind of script: each image of it with the lines up to the next, odd ones among them.
fn cases(kind: &str, size: usize, seed: u64) -> Vec<Case> {
    let mut random = Random::new(seed);
    let mut found: Vec<Case> = Vec::new();
    let mut scripts = generate::scripts(kind, size, seed).expect("a kind of script");
    while let Some(script) = scripts.next() {
        for line in &script.lines {
            match line.strip_prefix(b"image ").and_then(words::hex) {
                Some(image) => found.push(Case {
                    image,
                    input: b"t\nt\n".to_vec(),
                }),
                None => extend(found.last_mut(), line, &mut random),
            }
        }
    }
    for case in &mut found {
        if random.once_in(2) {
            case.input.pop(); // a last line without newline
        }
    }
    found
}

fn extend(case: Option<&mut Case>, line: &[u8], random: &mut Random) {
    let Some(case) = case else { return };
    case.input.extend([line, b"\n"].concat());
    if random.once_in(20) {
        case.input.extend([random.pick(&ODD), b"\n"].concat());
    }
    if random.once_in(500) {
        let long = vec![b't'; random.among(10, 10_000)];
        case.input.extend([&long[..], b"\n"].concat());
    }
}

/// What the command prints in a folder in which the case's image is `table.img`.
fn printed(command: &[&str], folder: &Path, case: &Case) -> io::Result<Vec<u8>> {
    let lines = folder.join("lines");
    fs::write(folder.join("table.img"), &case.image)?;
    fs::write(&lines, &case.input)?;
    let ran = Command::new(command[0])
        .args(&command[1..])
        .current_dir(folder)
        .stdin(File::open(&lines)?)
        .stderr(Stdio::inherit())
        .output()?;
    if !ran.status.success() {
        return Err(io::Error::other("the command failed"));
    }
    Ok(ran.stdout)
}

/// Runs about N tables that are accepted and N that are damaged or not; stops at the first difference.
fn compared(n: usize, seed: u64, command: &[&str], folder: &Path) -> io::Result<bool> {
    let mut all = cases("layout", 200 * n, seed);
    all.extend(cases("image", n, seed));
    let (mut refused, mut lines) = (0, 0);
    for (number, case) in all.iter().enumerate() {
        let expected = answers(&case.image, &case.input);
        let got = printed(command, folder, case)?;
        if got != expected.as_bytes() {
            println!(
                "panel: case {number} of seed {seed} differs; it stays in {}",
                folder.display()
            );
            fs::write(folder.join("expected"), &expected)?;
            fs::write(folder.join("printed"), &got)?;
            return Ok(false);
        }
        refused += usize::from(expected.starts_with("refused"));
        lines += expected.lines().count();
    }
    let tables = all.len();
    println!("panel: {tables} tables, {refused} of them refused, {lines} lines, 0 differences");
    Ok(true)
}

/// `oracle compare-panel N SEED -- COMMAND..`
pub fn run(n: usize, seed: u64, command: &[&str]) -> ExitCode {
    guard::silence();
    let folder = std::env::temp_dir().join(format!("compare-panel-{}", std::process::id()));
    let done = fs::create_dir(&folder).and_then(|()| compared(n, seed, command, &folder));
    match done {
        Ok(true) => {
            let _ = fs::remove_dir_all(&folder); // what is left over harms nobody
            ExitCode::SUCCESS
        }
        Ok(false) => ExitCode::from(1),
        Err(error) => {
            eprintln!("oracle: {error}");
            ExitCode::from(2)
        }
    }
}

#[cfg(test)]
mod tests {
    use super::*;
    use crate::paper::image::Z;

    #[test]
    fn odd_lines_change_nothing() {
        for line in ODD {
            assert_eq!(
                answers(&Z, &[line, b"\nt"].concat()),
                "?\n0000000000000000\n"
            );
        }
        assert_eq!(answers(&Z, b""), "");
    }
}
