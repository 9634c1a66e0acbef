//! The tables, as Markdown.
use crate::{
    line::{Goal, Line},
    list::{FIRST, OPENED, READ, WRITE},
    timing::Times,
};

pub struct Measured {
    pub line: Line,
    pub times: Times,
}

/// Up to so much above linear is laid to the clock.
const NOISE: f64 = 1.15;

fn duration(nanos: f64) -> String {
    let (value, unit) = match nanos {
        n if n < 1e3 => (n, "ns"),
        n if n < 1e6 => (n / 1e3, "µs"),
        n => (n / 1e6, "ms"),
    };
    let digits = if value < 9.995 { 2 } else { usize::from(value < 99.95) };
    format!("{value:.digits$} {unit}")
}

fn ratio(part: f64, whole: f64) -> String {
    let ratio = part / whole;
    if ratio < 0.0995 {
        format!("{ratio:.4}")
    } else {
        format!("{ratio:.2}")
    }
}

fn yes(met: bool) -> &'static str {
    if met {
        "yes"
    } else {
        "no"
    }
}

impl Measured {
    /// Whether the line's goal is met, if it has one.
    pub fn met(&self) -> Option<bool> {
        match self.line.goal {
            Goal::None => None,
            Goal::Ratio(most) => Some(self.times.port <= most * self.times.original),
            Goal::Nanos(most) => Some(self.times.port <= most),
        }
    }

    fn cells(&self) -> String {
        let Times { port, original, .. } = self.times;
        let goal = match self.line.goal {
            Goal::None => String::new(),
            Goal::Ratio(most) => format!("≤ {most}"),
            Goal::Nanos(most) => format!("≤ {} µs", most / 1e3),
        };
        format!(
            "{} | {} | {} | {} | {goal} | {}",
            self.line.name,
            duration(port),
            duration(original),
            ratio(port, original),
            self.met().map_or("", yes),
        )
    }

    /// Whether even a plain copy of the snapshot's bytes takes longer than the goal leaves.
    pub fn below_copy(&self) -> bool {
        match self.line.goal {
            Goal::Ratio(most) => most * self.times.original < self.times.copy,
            _ => false,
        }
    }

    /// The pages of a line of this family.
    fn pages_of(&self, family: &str) -> Option<usize> {
        self.line.growth.filter(|(name, _)| *name == family).map(|(_, pages)| pages)
    }

    fn is_snapshot(&self) -> bool {
        self.line.growth.is_some_and(|(family, _)| [WRITE, READ].contains(&family))
    }
}

fn calls(all: &[Measured]) -> Vec<String> {
    let mut lines = vec![
        "| operation | port | original | ratio | goal | met |".to_string(),
        "|---|---:|---:|---:|---:|---|".to_string(),
    ];
    lines.extend(all.iter().filter(|m| !m.is_snapshot()).map(|m| format!("| {} |", m.cells())));
    lines
}

fn snapshots(all: &[Measured]) -> Vec<String> {
    let mut lines = vec![
        "| operation | port | original | ratio | goal | met | bytes | plain copy | copy to original |"
            .to_string(),
        "|---|---:|---:|---:|---:|---|---:|---:|---:|".to_string(),
    ];
    lines.extend(all.iter().filter(|m| m.is_snapshot()).map(|m| {
        let Times { original, copy, bytes, .. } = m.times;
        format!("| {} | {bytes} | {} | {} |", m.cells(), duration(copy), ratio(copy, original))
    }));
    lines
}

/// What a page costs in each line of a family. Every snapshot also has the array and the registers: of its time only what
/// the pages add is shared out.
fn growth(all: &[Measured]) -> Vec<String> {
    let mut lines = vec![
        "| operation | pages | port | port, each page | original, each page | linear or better |"
            .to_string(),
        "|---|---:|---:|---:|---:|---|".to_string(),
    ];
    for family in [OPENED, FIRST, WRITE, READ] {
        let mut before = Before::default();
        for m in all {
            let Some(pages) = m.pages_of(family) else { continue };
            let times = m.times;
            let port = duration(times.port);
            if pages == 0 {
                before.base = times;
                before.copy = times.copy_each_byte();
                lines.push(format!("| {family} | 0 | {port} | | | |"));
                continue;
            }
            let each = (times.port - before.base.port) / pages as f64;
            let original = (times.original - before.base.original) / pages as f64;
            let linear = before.page.map_or("", |least| {
                let caches = (times.copy_each_byte() / before.copy).max(1.0);
                yes(each <= NOISE * caches * least)
            });
            before.page = Some(before.page.map_or(each, |least| each.min(least)));
            before.copy = before.copy.min(times.copy_each_byte());
            lines.push(format!(
                "| {family} | {pages} | {port} | {} | {} | {linear} |",
                duration(each),
                duration(original),
            ));
        }
    }
    lines
}

/// What the smaller lines of a family cost.
struct Before {
    /// The line without pages, if there is one.
    base: Times,
    /// The smallest cost of a page, and of a byte of the copy.
    page: Option<f64>,
    copy: f64,
}

impl Default for Before {
    fn default() -> Self {
        Before { base: Times::default(), page: None, copy: f64::INFINITY }
    }
}

/// The tables that have a line.
pub fn tables(all: &[Measured]) -> String {
    let mut text = String::new();
    for (heading, lines) in [
        ("Calls and looks", calls(all)),
        ("Snapshots", snapshots(all)),
        ("How the cost grows", growth(all)),
    ] {
        if lines.len() > 2 {
            text += &format!("\n{heading}:\n\n{}\n", lines.join("\n"));
        }
    }
    text
}
