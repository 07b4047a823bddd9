//! The counts, as `docs/speed.tsv` has them: a case a line, its fields parted by tabs. A field that was not counted is empty.
//!
//! Assumes nothing: what cannot be read is not there.

#[derive(Clone, Default)]
pub struct Count {
    pub part: String,
    pub name: String,
    /// Of what grows, how much there is.
    pub size: Option<f64>,
    pub image_check: Option<f64>,
    pub state_check: Option<f64>,
    pub core: Option<f64>,
    pub copies: Option<f64>,
    pub rust: Option<f64>,
}

pub struct Counts(Vec<Count>);

impl Counts {
    pub fn read(text: &str) -> Counts {
        let line = |line: &str| {
            let mut fields = line.split('\t');
            let mut word = || fields.next().unwrap_or_default();
            let (part, name) = (word().into(), word().into());
            let mut number = || word().parse().ok();
            Count {
                part,
                name,
                size: number(),
                image_check: number(),
                state_check: number(),
                core: number(),
                copies: number(),
                rust: number(),
            }
        };
        Counts(text.lines().skip(1).map(line).collect())
    }

    pub fn part<'a>(&'a self, part: &'a str) -> impl Iterator<Item = &'a Count> {
        self.0.iter().filter(move |count| count.part == part)
    }

    /// The names of a part, each once, in order.
    pub fn names<'a>(&'a self, part: &'a str) -> Vec<&'a str> {
        let mut names: Vec<&str> = self.part(part).map(|count| &count.name[..]).collect();
        names.dedup();
        names
    }

    pub fn series<'a>(&'a self, part: &'a str, name: &'a str) -> Vec<&'a Count> {
        self.part(part).filter(|count| count.name == name).collect()
    }
}

/// A number as it is written, with its thousands parted.
pub fn written(number: f64) -> String {
    let digits = format!("{:.0}", number.abs());
    let mut text = String::new();
    for (place, digit) in digits.chars().enumerate() {
        if place > 0 && (digits.len() - place) % 3 == 0 {
            text.push(',');
        }
        text.push(digit);
    }
    if number < 0.0 {
        format!("-{text}")
    } else {
        text
    }
}
