//! Text, line by line.

use std::fmt::{self, Write};

/// A page that is being written.
#[derive(Default)]
pub struct Page(String);

impl Page {
    /// Adds a line.
    pub fn line(&mut self, line: fmt::Arguments) {
        // Text takes all that is written to it.
        let _ = writeln!(self.0, "{line}");
    }

    /// Adds lines.
    pub fn append(&mut self, page: Page) {
        self.0.push_str(&page.0);
    }

    /// All of it.
    pub fn text(self) -> String {
        self.0
    }
}

/// How many there are: `no words`, `1 word`, `2 words`.
pub fn count(number: usize, noun: &str) -> String {
    match number {
        0 => format!("no {noun}s"),
        1 => format!("1 {noun}"),
        _ => format!("{number} {noun}s"),
    }
}

/// How many of them were read: `2 words`, or `1 of 2 words`.
pub fn count_of(read: usize, all: usize, noun: &str) -> String {
    if read == all {
        return count(all, noun);
    }
    format!("{read} of {}", count(all, noun))
}

/// Numbers with spaces between them.
pub fn spaced<T: ToString>(numbers: impl IntoIterator<Item = T>) -> String {
    let numbers: Vec<String> = numbers
        .into_iter()
        .map(|number| number.to_string())
        .collect();
    numbers.join(" ")
}

/// A word, or that it is the empty one.
pub fn word(events: &[u8]) -> String {
    if events.is_empty() {
        return "the empty word".into();
    }
    spaced(events)
}
