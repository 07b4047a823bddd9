//! Holds the key code constants of the port to the Rust's names and values.
//!
//! Assumes: the port's constants stand in `impl KeyCode {`, a line each, in the layout that its formatter
//! gives them.

use crate::key_code;
use std::collections::BTreeMap;
use std::process::ExitCode;

const WANTED: usize = 193;

/// The exit code is 0 for the same names and values, 1 for a difference, 2 for a file that cannot be read.
pub fn run(files: &[&str]) -> ExitCode {
    let mut text = String::new();
    for file in files {
        match std::fs::read_to_string(file) {
            Ok(more) => text += &more,
            Err(error) => {
                eprintln!("compare: names: {file}: {error}");
                return ExitCode::from(2);
            }
        }
    }
    match first_difference(&text, &key_code::names()) {
        None => {
            println!("compare: names: {WANTED} names and values, 0 differences");
            ExitCode::SUCCESS
        }
        Some(difference) => {
            println!("compare: names: {difference}");
            ExitCode::from(1)
        }
    }
}

fn first_difference(text: &str, names: &str) -> Option<String> {
    let mut ours = BTreeMap::new();
    for (name, value) in constants(text) {
        if ours.insert(name, value).is_some() {
            return Some(format!("{name} stands twice in ours"));
        }
    }
    let oracle: Vec<(&str, u8)> = names.lines().filter_map(named_value).collect();
    for (name, value) in &oracle {
        match ours.remove(name) {
            Some(found) if found == *value => (),
            Some(found) => {
                return Some(format!(
                    "{name} is 0x{value:02X} in the Rust, 0x{found:02X} in ours"
                ))
            }
            None => {
                return Some(format!(
                    "{name}, 0x{value:02X} in the Rust, is missing in ours"
                ))
            }
        }
    }
    if let Some((name, value)) = ours.first_key_value() {
        return Some(format!("{name}, 0x{value:02X} in ours, is not in the Rust"));
    }
    let count = oracle.len();
    (count != WANTED).then(|| format!("{count} names, not {WANTED}"))
}

/// The constants between `impl KeyCode {` and the brace that closes it.
fn constants(text: &str) -> Vec<(&str, u8)> {
    let mut inside = false;
    let mut found = Vec::new();
    for line in text.lines() {
        match line {
            "impl KeyCode {" => inside = true,
            "}" => inside = false,
            _ if inside => found.extend(constant(line)),
            _ => (),
        }
    }
    found
}

fn constant(line: &str) -> Option<(&str, u8)> {
    let rest = line.strip_prefix("    pub const ")?.strip_suffix(';')?;
    let (name, value) = rest.split_once(": u8 = ")?;
    Some((name, hex_value(value)?))
}

fn named_value(line: &str) -> Option<(&str, u8)> {
    let (name, value) = line.split_once(' ')?;
    Some((name, hex_value(value)?))
}

fn hex_value(text: &str) -> Option<u8> {
    let digits = text.strip_prefix("0x").filter(|digits| digits.len() == 2)?;
    u8::from_str_radix(digits, 16).ok()
}

#[cfg(test)]
mod tests {
    use super::*;

    /// The port's text for names and values as the oracle prints them.
    fn text_of(names: &str) -> String {
        let constant = |line: &str| {
            let (name, value) = line.split_once(' ').expect("a name and a value");
            format!("    pub const {name}: u8 = {value};\n")
        };
        let constants: String = names.lines().map(constant).collect();
        format!(
            "pub struct KeyCode {{\n}}\nimpl KeyCode {{\n{constants}}}\npub const A: u8 = 0x00;\n"
        )
    }

    #[test]
    fn equal_names_have_no_difference() {
        assert_eq!(
            first_difference(&text_of(&key_code::names()), &key_code::names()),
            None
        );
    }

    #[test]
    fn missing_wrong_and_further_names_are_told() {
        let names = key_code::names();
        let told = |ours: &str| first_difference(&text_of(ours), &names).unwrap_or_default();
        assert!(told(&names.replace("LCtrl 0xE0\n", "")).starts_with("LCtrl, 0xE0 in the Rust"));
        assert!(told(&names.replace("LCtrl 0xE0", "LCtrl 0xE1")).starts_with("LCtrl is 0xE0"));
        assert!(told(&format!("{names}Zed 0xA5\n")).starts_with("Zed, 0xA5 in ours"));
        assert!(told(&format!("{names}LCtrl 0xE0\n")).starts_with("LCtrl stands twice"));
    }
}
