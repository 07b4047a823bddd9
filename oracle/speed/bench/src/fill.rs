//! The tables of a text, made from the counts: each stands between a line `<!-- speed: NAME -->` and a line
//! `<!-- end -->`, and what was there is dropped.
//!
//! Assumes nothing.

use super::counts::{written, Count, Counts};

pub fn filled(text: &str, counts: &Counts) -> String {
    let mut out = String::new();
    let mut in_table = false;
    for line in text.lines() {
        if line == "<!-- end -->" {
            in_table = false;
        }
        if !in_table {
            out += &format!("{line}\n");
        }
        if let Some(name) = line.strip_prefix("<!-- speed: ") {
            out += &table(name.trim_end_matches(" -->"), counts);
            in_table = true;
        }
    }
    out
}

fn table(name: &str, counts: &Counts) -> String {
    match name {
        "image" => images(counts),
        "layout" => layout(counts),
        "others" => others(counts),
        "growth" => growth(counts),
        _ => String::new(),
    }
}

fn row(cells: &[String]) -> String {
    format!("| {} |\n", cells.join(" | "))
}

fn head(cells: &[&str]) -> String {
    let rule = "|---".repeat(cells.len());
    format!("| {} |\n{rule}|\n", cells.join(" | "))
}

fn number(count: Option<f64>) -> String {
    count.map_or(String::new(), written)
}

fn ratio(ours: Option<f64>, rust: Option<f64>) -> String {
    match (ours, rust) {
        (Some(ours), Some(rust)) => format!("{:.1}", ours / rust),
        _ => String::new(),
    }
}

fn images(counts: &Counts) -> String {
    let line = |count: &Count| row(&[count.name.clone(), number(count.image_check)]);
    let rows: String = counts.part("image").map(line).collect();
    head(&["table", "instructions"]) + &rows
}

fn call(count: &Count) -> String {
    row(&[
        count.name.clone(),
        number(count.state_check),
        number(count.core),
        number(count.copies),
        number(count.rust),
        ratio(count.core, count.rust),
    ])
}

fn layout(counts: &Counts) -> String {
    let part = "layout on ordinary";
    let rows: String = counts.part(part).map(call).collect();
    let head = head(&[
        "call",
        "State check",
        "core",
        "copies in it",
        "the Rust",
        "core / Rust",
    ]);
    head + &rows + &call(&second(counts, part))
}

/// A second of a thousand ticks with ten strokes in it, each pressed and released by ticks of their own.
fn second(counts: &Counts, part: &str) -> Count {
    let parts = [
        (980.0, "idle tick, nothing held"),
        (10.0, "tick that acts on a press, nothing held"),
        (10.0, "tick that acts on a release, 6 states held"),
        (20.0, "event, nothing queued"),
    ];
    let sum = |field: fn(&Count) -> Option<f64>| {
        let terms = parts.map(|(times, name)| {
            let count = counts.series(part, name).first().copied().and_then(field);
            count.map(|count| times * count)
        });
        terms.into_iter().sum()
    };
    Count {
        name: "a second: 980 idle ticks and ten strokes, by these rows".into(),
        state_check: sum(|count| count.state_check),
        core: sum(|count| count.core),
        copies: sum(|count| count.copies),
        rust: sum(|count| count.rust),
        ..Count::default()
    }
}

fn others(counts: &Counts) -> String {
    let line = |count: &Count| {
        let ratio = ratio(count.core, count.rust);
        row(&[
            count.name.clone(),
            number(count.core),
            number(count.rust),
            ratio,
        ])
    };
    let parts = ["scan", "report", "keyboard"].into_iter();
    let rows: String = parts.flat_map(|part| counts.part(part)).map(line).collect();
    head(&["call", "the port", "the Rust", "port / Rust"]) + &rows
}

/// A line for each series: where it begins, where it ends, and what one more costs between.
fn growth(counts: &Counts) -> String {
    let parts = [
        ("cells", "image check", of_image as Field),
        ("records", "image check", of_image),
        ("entries", "image check", of_image),
        ("states", "State check", of_state),
        ("states", "core", of_core),
        ("states", "the Rust", of_rust),
        ("queue", "State check", of_state),
        ("queue", "core", of_core),
        ("queue", "the Rust", of_rust),
    ];
    let mut rows = String::new();
    for (part, what, field) in parts {
        for name in counts.names(part) {
            let series = counts.series(part, name);
            if let Some(cells) = line(part, name, what, &series, field) {
                rows += &row(&cells);
            }
        }
    }
    head(&["by", "of", "counted", "from", "to", "one more"]) + &rows
}

type Field = fn(&Count) -> Option<f64>;

fn of_image(count: &Count) -> Option<f64> {
    count.image_check
}

fn of_state(count: &Count) -> Option<f64> {
    count.state_check
}

fn of_core(count: &Count) -> Option<f64> {
    count.core
}

fn of_rust(count: &Count) -> Option<f64> {
    count.rust
}

fn line(
    part: &str,
    name: &str,
    what: &str,
    series: &[&Count],
    field: Field,
) -> Option<[String; 6]> {
    let (first, last) = (series.first()?, series.last()?);
    let [from, to] = [first, last].map(|count| Some((count.size?, field(count)?)));
    let ((less, at_less), (more, at_more)) = (from?, to?);
    let end = |size: f64, count: f64| format!("{}: {}", written(size), written(count));
    Some([
        part.into(),
        name.into(),
        what.into(),
        end(less, at_less),
        end(more, at_more),
        format!("{:.1}", (at_more - at_less) / (more - less)),
    ])
}
