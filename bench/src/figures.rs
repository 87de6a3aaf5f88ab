//! The printed table, and the notes under it.

use floelinnet_tests::reference::limits::Limit;

pub struct Figures {
    lines: Vec<String>,
    notes: Vec<String>,
}

/// One line: what was called on which input, the state of the buffers, and the times on both sides.
pub struct Figure<'a> {
    pub what: &'a str,
    pub input: &'a str,
    pub buffers: &'a str,
    pub unit: Unit,
    pub archive: f64,
    pub beside: &'a str,
    pub plain: f64,
}

#[derive(Clone, Copy)]
pub enum Unit {
    Nanoseconds,
    Microseconds,
    NanosecondsPerOutcome(usize),
}

impl Figures {
    pub fn new() -> Figures {
        let head = "| what | input | Floelinnet | beside it | its time | times as fast | buffers |";
        let rule = "|---|---|---:|---|---:|---:|---|";
        Figures { lines: vec![head.to_owned(), rule.to_owned()], notes: Vec::new() }
    }

    pub fn add(&mut self, figure: Figure) {
        let Figure { what, input, buffers, unit, archive, beside, plain } = figure;
        let (ours, theirs, ratio) = (unit.show(archive), unit.show(plain), plain / archive);
        self.lines.push(format!("| {what} | {input} | {ours} | {beside} | {theirs} | {ratio:.1} | {buffers} |"));
        eprintln!("measured: {what}, {input}");
    }

    pub fn note(&mut self, note: String) {
        self.notes.push(format!("- {note}"));
    }

    pub fn print(&self) {
        println!("{}\n\n{}", self.lines.join("\n"), self.notes.join("\n"));
    }
}

impl Unit {
    fn show(self, nanoseconds: f64) -> String {
        match self {
            Unit::Nanoseconds => format!("{nanoseconds:.1} ns"),
            Unit::Microseconds if nanoseconds < 1e4 => format!("{:.2} µs", nanoseconds / 1e3),
            Unit::Microseconds => format!("{:.0} µs", nanoseconds / 1e3),
            Unit::NanosecondsPerOutcome(outcomes) => {
                format!("{:.1} ns an outcome", nanoseconds / outcomes as f64)
            }
        }
    }
}

/// A set in words, equal neighbours together: `8 × RowHit(2,12)`.
pub fn words(set: &[Limit]) -> String {
    let word = |group: &[Limit]| {
        let Limit { kind, x, k } = group[0];
        let name = ["AnyHit", "RowHit", "AnyMiss", "RowMiss"][usize::from(kind)];
        let numbers = if kind == 3 { format!("({x})") } else { format!("({x},{k})") };
        let times = if group.len() > 1 { format!("{} × ", group.len()) } else { String::new() };
        times + name + &numbers
    };
    set.chunk_by(|a, b| a == b).map(word).collect::<Vec<_>>().join(", ")
}
