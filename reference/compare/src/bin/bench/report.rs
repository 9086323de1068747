//! The measures and how they are printed, in Markdown.

use crate::timing::{Bench, Calls, Measure};

/// One call on one input.
pub struct Row {
    pub call: &'static str,
    pub input: String,
    pub measure: Measure,
}

/// All that was measured; of one call alone, where one is named.
pub struct Report {
    pub bench: Bench,
    pub only: Option<String>,
    pub rows: Vec<Row>,
}

impl Report {
    pub fn add(&mut self, call: &'static str, input: &str, calls: impl FnOnce() -> Calls) {
        if self.only.as_deref().map_or(false, |only| only != call) {
            return;
        }
        let measure = self.bench.measure(calls());
        eprintln!("{call}, {input}: {}", entry(&measure));
        self.rows.push(Row {
            call,
            input: input.to_string(),
            measure,
        });
    }

    pub fn get(&self, call: &str, input: &str) -> Option<&Measure> {
        let found = self
            .rows
            .iter()
            .find(|row| row.call == call && row.input == input);
        found.map(|row| &row.measure)
    }

    /// The entry of a table, or a dash.
    pub fn entry(&self, call: &str, input: &str) -> String {
        self.get(call, input).map_or("–".to_string(), entry)
    }
}

/// A whole number with commas.
pub fn whole(number: usize) -> String {
    let digits = number.to_string();
    let mut text = String::new();
    for (at, digit) in digits.chars().enumerate() {
        if at > 0 && (digits.len() - at) % 3 == 0 {
            text.push(',');
        }
        text.push(digit);
    }
    text
}

/// A number to three digits.
pub fn digits(number: f64) -> String {
    match number {
        n if n < 0.01 => format!("{n:.4}"),
        n if n < 1.0 => format!("{n:.2}"),
        n if n < 10.0 => format!("{n:.2}"),
        n if n < 100.0 => format!("{n:.1}"),
        n => whole(n.round() as usize),
    }
}

/// A ratio to two digits.
pub fn ratio(number: f64) -> String {
    match number {
        n if n < 0.01 => "<0.01".to_string(),
        n if n < 9.95 => format!("{n:.2}"),
        n if n < 99.5 => format!("{n:.0}"),
        n => whole(n.round() as usize),
    }
}

/// A time with its unit.
pub fn time(micros: f64) -> String {
    match micros {
        t if t < 0.1 => format!("{:.1} ns", t * 1e3),
        t if t < 1.0 => format!("{:.0} ns", t * 1e3),
        t if t < 10_000.0 => format!("{} µs", digits(t)),
        t => format!("{} ms", digits(t / 1e3)),
    }
}

/// Microseconds, and in brackets the ratio to the second implementation and, where
/// words are written, to a copy of them.
pub fn entry(measure: &Measure) -> String {
    let copy = measure
        .over_copy()
        .map_or(String::new(), |over| format!("; {}", ratio(over)));
    format!(
        "{} ({}{copy})",
        digits(measure.proved),
        ratio(measure.over_second())
    )
}

/// A table of these columns and rows.
pub fn table(title: &str, columns: &[&str], rows: &[Vec<String>]) {
    println!("\n**{title}**\n");
    println!("| {} |", columns.join(" | "));
    println!("|{}", "---|".repeat(columns.len()));
    for row in rows {
        println!("| {} |", row.join(" | "));
    }
}
