//! What the benchmark writes: docs/BENCHMARKS.md's measured part, and the plot.
//!
//! - `tables`: the measured part
//! - `calls`: what it says of the calls on all catalogues, and their plot
//! - `plot`, `svg`: how a plot is drawn, and a small writer of SVG

pub mod calls;
pub mod plot;
pub mod svg;
pub mod tables;

/// The lines that the measured part stands between.
pub const BEGIN: &str = "<!-- measured: ./bench writes what follows -->";
pub const END: &str = "<!-- end of what ./bench writes -->";

/// A number with commas: 262,144.
pub fn grouped(number: usize) -> String {
    let digits = number.to_string();
    let mut grouped = String::new();
    for (i, digit) in digits.chars().enumerate() {
        if i > 0 && (digits.len() - i).is_multiple_of(3) {
            grouped.push(',');
        }
        grouped.push(digit);
    }
    grouped
}

/// A cost in three digits or more: 0.0123, 1.23, 12.3, 1,234.
pub fn digits(value: f64) -> String {
    match value {
        _ if value >= 999.5 => grouped(value.round() as usize),
        _ if value >= 99.95 => format!("{value:.0}"),
        _ if value >= 9.995 => format!("{value:.1}"),
        _ if value >= 0.9995 => format!("{value:.2}"),
        _ if value >= 0.09995 => format!("{value:.3}"),
        _ => format!("{value:.4}"),
    }
}

/// A document with another text between the two lines; nothing if it lacks them.
pub fn replaced(document: &str, measured: &str) -> Option<String> {
    let (before, rest) = document.split_once(BEGIN)?;
    let (_, after) = rest.split_once(END)?;
    Some(format!(
        "{before}{BEGIN}\n\n{}\n\n{END}{after}",
        measured.trim()
    ))
}

/// A text in lines of at most 100 characters; lines after the first are indented.
pub fn wrapped(text: &str, indent: &str) -> String {
    const MOST: usize = 100;
    let (mut lines, mut line) = (String::new(), String::new());
    for word in text.split(' ') {
        if line.chars().count() + 1 + word.chars().count() > MOST {
            lines += &format!("{line}\n");
            line = format!("{indent}{word}");
        } else {
            line += if line.is_empty() { "" } else { " " };
            line += word;
        }
    }
    lines + &line
}

/// A table in Markdown.
pub struct Table {
    text: String,
}

impl Table {
    pub fn new(head: &[&str]) -> Table {
        let text = format!("| {} |\n|{}\n", head.join(" | "), "---|".repeat(head.len()));
        Table { text }
    }

    pub fn row(&mut self, cells: &[String]) {
        self.text += &format!("| {} |\n", cells.join(" | "));
    }

    pub fn text(self) -> String {
        self.text
    }
}
