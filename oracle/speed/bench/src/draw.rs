//! The picture of the counts, as SVG: the calls and the tables as bars, and how the counts grow as lines.
//!
//! Assumes nothing: what was not counted is not drawn.

use super::counts::{written, Count, Counts};

type Field = fn(&Count) -> Option<f64>;

/// A colour, what it stands for, and where its numbers are.
type Kind = (&'static str, &'static str, Field);

const CORE: Kind = ("#1f5fa8", "core", |count| count.core);
const STATE: Kind = ("#6aaede", "State check", |count| count.state_check);
const IMAGE: Kind = ("#c4dcf0", "image check", |count| count.image_check);
const RUST: Kind = ("#d9822b", "the Rust", |count| count.rust);

/// The colours of series of one kind.
const SERIES: [&str; 3] = ["#1f5fa8", "#2f8f5b", "#8a4fa3"];

const WIDTH: f64 = 1240.0;
const HEIGHT: f64 = 1090.0;

pub fn picture(counts: &Counts) -> String {
    let mut out = format!(
        "<svg xmlns=\"http://www.w3.org/2000/svg\" viewBox=\"0 0 {WIDTH} {HEIGHT}\" font-family=\"sans-serif\">\n"
    );
    out += &rect([0.0, 0.0, WIDTH, HEIGHT], "#ffffff");
    out += &text(
        [20.0, 28.0],
        17.0,
        "start",
        "Instructions of one call: the port : the Rust, the layout on an ordinary table",
    );
    out += &legend([20.0, 50.0], &[CORE, STATE, IMAGE, RUST]);
    out += &calls(counts, [20.0, 66.0]);
    out += &tables(counts, [860.0, 66.0]);
    out += &growth(counts, [20.0, 560.0]);
    out + "</svg>\n"
}

fn rect([x, y, w, h]: [f64; 4], colour: &str) -> String {
    format!(
        "<rect x=\"{x:.1}\" y=\"{y:.1}\" width=\"{w:.1}\" height=\"{h:.1}\" fill=\"{colour}\"/>\n"
    )
}

fn line([x, y]: [f64; 2], [to_x, to_y]: [f64; 2], colour: &str) -> String {
    format!(
        "<line x1=\"{x:.1}\" y1=\"{y:.1}\" x2=\"{to_x:.1}\" y2=\"{to_y:.1}\" stroke=\"{colour}\"/>\n"
    )
}

fn text([x, y]: [f64; 2], size: f64, anchor: &str, words: &str) -> String {
    format!(
        "<text x=\"{x:.1}\" y=\"{y:.1}\" font-size=\"{size}\" text-anchor=\"{anchor}\" fill=\"#222222\">{words}</text>\n"
    )
}

fn legend([x, y]: [f64; 2], kinds: &[Kind]) -> String {
    let mut out = String::new();
    for (place, (colour, name, _)) in kinds.iter().enumerate() {
        let left = x + 120.0 * place as f64;
        out += &rect([left, y - 10.0, 12.0, 12.0], colour);
        out += &text([left + 18.0, y], 12.0, "start", name);
    }
    out
}

/// Each call of the ordinary table, of scans, reports and the keyboard: the port's parts in a row, the Rust's below.
fn calls(counts: &Counts, [x, y]: [f64; 2]) -> String {
    let parts = ["layout on ordinary", "scan", "report", "keyboard"];
    let all: Vec<&Count> = parts.iter().flat_map(|part| counts.part(part)).collect();
    let (left, scale) = (x + 275.0, 480.0 / 15000.0);
    let bottom = y + 17.0 * all.len() as f64;
    let mut out = String::new();
    for count in [0.0, 2500.0, 5000.0, 7500.0, 10000.0, 12500.0, 15000.0] {
        let at = left + count * scale;
        out += &line([at, y], [at, bottom], "#dddddd");
        out += &text([at, bottom + 12.0], 10.0, "middle", &written(count));
    }
    for (place, count) in all.iter().enumerate() {
        out += &call(count, [left, y + 17.0 * place as f64], scale);
    }
    out
}

fn call(count: &Count, [left, top]: [f64; 2], scale: f64) -> String {
    let mut out = text([left - 6.0, top + 11.0], 11.0, "end", &count.name);
    let mut sum = 0.0;
    for (colour, _, field) in [CORE, STATE, IMAGE] {
        let part = field(count).unwrap_or(0.0);
        out += &rect([left + sum * scale, top + 1.0, part * scale, 7.0], colour);
        sum += part;
    }
    let (core, rust) = (count.core.unwrap_or(0.0), count.rust.unwrap_or(0.0));
    out += &rect([left, top + 8.0, rust * scale, 6.0], RUST.0);
    let [sum_said, core_said, rust_said] = [sum, core, rust].map(written);
    let said = if core == sum {
        format!("{core_said} : {rust_said}")
    } else {
        format!("{sum_said} (core {core_said}) : {rust_said}")
    };
    let behind = left + sum.max(rust) * scale + 6.0;
    // no line of the scale runs through the numbers
    let wide = 6.0 * said.chars().count() as f64;
    out += &rect([behind - 3.0, top + 2.0, wide, 11.0], "#ffffff");
    out + &text([behind, top + 11.0], 10.0, "start", &said)
}

/// The image check of each table, and below the last the axis: up to what is asked of any table.
fn tables(counts: &Counts, [x, y]: [f64; 2]) -> String {
    let scale = 300.0 / 1_000_000.0;
    let mut out = text([x, y - 16.0], 12.5, "start", "Image check, by table");
    let mut bottom = y + 8.0;
    for count in counts.part("image") {
        let top = bottom;
        bottom += 44.0;
        let instructions = count.image_check.unwrap_or(0.0);
        let lines = halves(&count.name);
        // the last line of the name stands on the bar
        for (row, words) in lines
            .iter()
            .filter(|words| !words.is_empty())
            .rev()
            .enumerate()
        {
            out += &text([x, top + 12.0 - 12.0 * row as f64], 10.5, "start", words);
        }
        let width = instructions * scale;
        out += &rect([x, top + 17.0, width.max(1.0), 9.0], CORE.0);
        out += &text(
            [x + width + 6.0, top + 26.0],
            10.0,
            "start",
            &written(instructions),
        );
    }
    for count in [0.0, 250_000.0, 500_000.0, 750_000.0, 1_000_000.0] {
        let at = x + count * scale;
        out += &line([at, bottom], [at, bottom + 4.0], "#555555");
        out += &text([at, bottom + 15.0], 10.0, "middle", &written(count));
    }
    out + &line([x, bottom], [x + 300.0, bottom], "#555555")
}

/// Words in two lines, of which the first has at most 62 characters.
fn halves(words: &str) -> [String; 2] {
    let mut lines = [String::new(), String::new()];
    let mut row = 0;
    for word in words.split(' ') {
        if lines[row].chars().count() + word.chars().count() > 61 {
            row = 1;
        }
        lines[row] += if lines[row].is_empty() { "" } else { " " };
        lines[row] += word;
    }
    lines
}

/// A line of a panel: its colour, its name, and its points.
struct Curve {
    colour: &'static str,
    name: String,
    points: Vec<[f64; 2]>,
}

fn points(series: &[&Count], field: Field) -> Vec<[f64; 2]> {
    let point = |count: &&Count| Some([count.size?, field(count)?]);
    series.iter().filter_map(point).collect()
}

/// The image check of each series of a part.
fn of_tables(counts: &Counts, part: &str) -> Vec<Curve> {
    let names = counts.names(part).into_iter().zip(SERIES);
    let curve = |(name, colour): (&str, &'static str)| Curve {
        colour,
        name: name.into(),
        points: points(&counts.series(part, name), IMAGE.2),
    };
    names.map(curve).collect()
}

/// A call's parts and the Rust.
fn of_call(counts: &Counts, part: &str, name: &str) -> Vec<Curve> {
    let series = counts.series(part, name);
    let curve = |(colour, name, field): Kind| Curve {
        colour,
        name: name.into(),
        points: points(&series, field),
    };
    [CORE, STATE, RUST].map(curve).into()
}

fn growth(counts: &Counts, [x, y]: [f64; 2]) -> String {
    let panels = [
        ("Image check, by cells", of_tables(counts, "cells")),
        ("Image check, by records", of_tables(counts, "records")),
        (
            "Image check, by entries of one record",
            of_tables(counts, "entries"),
        ),
        (
            "Idle tick, by states",
            of_call(counts, "states", "idle tick"),
        ),
        (
            "Tick that acts on a press, by states",
            of_call(counts, "states", "tick that acts on a press"),
        ),
        ("Event, by events queued", of_call(counts, "queue", "event")),
        (
            "Tick while a hold-tap waits, by events queued",
            of_call(counts, "queue", "tick while a hold-tap waits"),
        ),
    ];
    let mut out = String::new();
    for (place, (title, curves)) in panels.iter().enumerate() {
        // three panels, and four below
        let (row, column, wide) = if place < 3 {
            (0, place, 405.0)
        } else {
            (1, place - 3, 303.0)
        };
        let at = [x + wide * column as f64, y + 265.0 * row as f64];
        out += &panel(at, wide - 85.0, title, curves);
    }
    out
}

/// A round number at or past what is given, and how many steps an axis up to it has.
fn round_up(number: f64) -> (f64, usize) {
    let unit = 10f64.powf(number.max(1.0).log10().floor());
    let ends = [
        (1.0, 5),
        (1.5, 3),
        (2.0, 4),
        (3.0, 3),
        (4.0, 4),
        (5.0, 5),
        (8.0, 4),
        (10.0, 5),
    ];
    let fits = ends.iter().find(|(end, _)| number <= end * unit);
    fits.map_or((10.0 * unit, 5), |&(end, steps)| (end * unit, steps))
}

fn panel([x, y]: [f64; 2], width: f64, title: &str, curves: &[Curve]) -> String {
    let (left, bottom, height) = (x + 45.0, y + 190.0, 165.0);
    let all = || curves.iter().flat_map(|curve| &curve.points);
    let (top, steps) = round_up(all().map(|point| point[1]).fold(1.0, f64::max));
    let last = all().map(|point| point[0]).fold(1.0, f64::max);
    let place =
        |[size, count]: [f64; 2]| [left + width * size / last, bottom - height * count / top];
    let mut out = text([x, y + 10.0], 12.5, "start", title);
    for step in 0..=steps {
        let count = top * step as f64 / steps as f64;
        let [_, at] = place([0.0, count]);
        out += &line([left, at], [left + width, at], "#dddddd");
        out += &text([left - 5.0, at + 3.5], 10.0, "end", &written(count));
    }
    let mut sizes: Vec<f64> = all().map(|point| point[0]).collect();
    sizes.sort_by(f64::total_cmp);
    // the sizes of a few points, apart from each other
    let mut free = 0.0;
    for size in sizes {
        let [at, _] = place([size, 0.0]);
        if at >= free {
            out += &line([at, bottom], [at, bottom + 4.0], "#555555");
            out += &text([at, bottom + 15.0], 10.0, "middle", &written(size));
            free = at + 26.0;
        }
    }
    out += &line([left, bottom], [left + width, bottom], "#555555");
    out + &curves_in(curves, place, [left, bottom + 28.0])
}

/// Whether two lines lie so close that the later one hides the other.
fn hides(one: &[[f64; 2]], other: &[[f64; 2]]) -> bool {
    let close = |(a, b): (&[f64; 2], &[f64; 2])| (a[0] - b[0]).hypot(a[1] - b[1]) < 2.0;
    one.len() == other.len() && one.iter().zip(other).all(close)
}

/// A line with its points.
fn drawn(places: &[[f64; 2]], colour: &str, dashes: &str) -> String {
    let pair = |[x, y]: &[f64; 2]| format!("{x:.1},{y:.1}");
    let pairs: Vec<String> = places.iter().map(pair).collect();
    let mut out = format!(
        "<polyline points=\"{}\" fill=\"none\" stroke=\"{colour}\" stroke-width=\"2\"{dashes}/>\n",
        pairs.join(" ")
    );
    for [x, y] in places {
        out += &format!("<circle cx=\"{x:.1}\" cy=\"{y:.1}\" r=\"2.5\" fill=\"{colour}\"/>\n");
    }
    out
}

/// The lines of a panel, and their names below it. A line on top of another is dashed, so that both are seen.
fn curves_in(curves: &[Curve], place: impl Fn([f64; 2]) -> [f64; 2], [x, y]: [f64; 2]) -> String {
    let mut out = String::new();
    let mut before: Vec<Vec<[f64; 2]>> = Vec::new();
    for (row, curve) in curves.iter().enumerate() {
        let colour = curve.colour;
        let places: Vec<[f64; 2]> = curve.points.iter().map(|&point| place(point)).collect();
        let hides_one = before.iter().any(|other| hides(&places, other));
        let dashes = if hides_one {
            " stroke-dasharray=\"10 10\""
        } else {
            ""
        };
        out += &drawn(&places, colour, dashes);
        before.push(places);
        let below = y + 12.0 * row as f64;
        out += &rect([x, below - 5.0, 12.0, 3.0], colour);
        let last = curve.points.last().map_or(0.0, |point| point[1]);
        let said = format!("{} (last: {})", curve.name, written(last));
        out += &text([x + 17.0, below], 10.0, "start", &said);
    }
    out
}
