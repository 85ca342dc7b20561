//! The log: its words as they are read, and its rows as the library keeps them.

use super::fault::Fault;
use hovmekhar::{Summary, MAX_EVENTS, ROW_SIZE, TABLE_SIZE};

/// An event after the counts of a row.
#[derive(Clone, Copy, Debug, PartialEq, Eq)]
pub struct Step {
    /// The row.
    pub row: usize,
    /// The event.
    pub event: usize,
}

/// A word, and where its length is.
pub struct Word {
    /// The offset of its length.
    pub offset: usize,
    /// Whether it is marked as completed; in the old edition no word is.
    pub completed: bool,
    /// Its events.
    pub events: Vec<u8>,
}

impl Word {
    /// How often each event below n occurs in it.
    pub fn counts(&self, n: usize) -> Vec<i64> {
        let mut counts = vec![0; n];
        for &event in &self.events {
            counts[usize::from(event)] += 1;
        }
        counts
    }

    /// Its mark in words.
    pub fn mark(&self) -> &'static str {
        match self.completed {
            true => "completed",
            false => "partial",
        }
    }
}

/// A log over some events. The library keeps its table, so its rows and its allowed
/// steps are proved right.
pub struct Log {
    /// Whether the edition of the bundle is the new one.
    pub is_new: bool,
    /// How far the table is filled.
    pub summary: Summary,
    table: Vec<u16>,
    /// The words.
    pub words: Vec<Word>,
    /// For each row its first prefix: the word, and how much of it.
    firsts: Vec<(usize, usize)>,
}

impl Log {
    /// The empty log over 1 to 12 events, which has the row of the empty word.
    pub fn fresh(n: usize, is_new: bool) -> Self {
        let mut table = vec![0; TABLE_SIZE];
        let empty = Summary {
            n,
            rows: 1,
            events: 0,
        };
        let summary = Summary::fresh(n, &mut table).unwrap_or(empty);
        Self {
            is_new,
            summary,
            table,
            words: Vec::new(),
            firsts: vec![(0, 0)],
        }
    }

    /// Takes a word whose events are below n, so that the library refuses it for its
    /// rows alone.
    pub fn take(&mut self, word: Word) -> Result<(), Fault> {
        let Ok(summary) = self.summary.take(&word.events, &mut self.table) else {
            return Err(Fault::Rows {
                word: self.words.len(),
                offset: word.offset,
                rows: self.rows() + self.new_rows(&word.events),
            });
        };
        self.summary = summary;
        self.note_first_prefixes(&word.events);
        self.words.push(word);
        Ok(())
    }

    /// Finds the first prefixes of the rows that a word has added: they are in the
    /// order of its prefixes.
    fn note_first_prefixes(&mut self, events: &[u8]) {
        let word = self.words.len();
        for (length, counts) in prefixes(events) {
            let next = self.firsts.len();
            if next < self.rows() && self.all_counts(next) == counts {
                self.firsts.push((word, length));
            }
        }
    }

    /// How many rows a word would add. No two of its prefixes have the same counts.
    fn new_rows(&self, events: &[u8]) -> usize {
        let is_new =
            |counts: &[u16; MAX_EVENTS]| (0..self.rows()).all(|row| self.all_counts(row) != counts);
        prefixes(events)
            .filter(|(_, counts)| is_new(counts))
            .count()
    }

    /// The event count.
    pub fn n(&self) -> usize {
        self.summary.n
    }

    /// How many rows there are.
    pub fn rows(&self) -> usize {
        self.summary.rows
    }

    fn all_counts(&self, row: usize) -> &[u16] {
        &self.table[row * ROW_SIZE..][..MAX_EVENTS]
    }

    /// How often each event occurs in the prefixes of a row.
    pub fn counts(&self, row: usize) -> &[u16] {
        &self.all_counts(row)[..self.n()]
    }

    /// How many words have a prefix with the counts of a row. A log has at most 255
    /// words here, so it is never the largest number of a table.
    pub fn traffic(&self, row: usize) -> u16 {
        self.table[row * ROW_SIZE + MAX_EVENTS + 1]
    }

    /// Whether a step is allowed.
    pub fn allows(&self, step: Step) -> bool {
        let mask = self.table[step.row * ROW_SIZE + MAX_EVENTS];
        mask >> step.event & 1 == 1
    }

    /// All steps, by row and then by event, that are allowed, or that are not.
    pub fn steps(&self, allowed: bool) -> Vec<Step> {
        let rows = 0..self.rows();
        let all = rows.flat_map(|row| (0..self.n()).map(move |event| Step { row, event }));
        all.filter(|&step| self.allows(step) == allowed).collect()
    }

    /// The first prefix that has the counts of a row.
    pub fn first(&self, row: usize) -> &[u8] {
        let prefix = self.firsts.get(row).and_then(|&(word, length)| {
            let word = self.words.get(word)?;
            word.events.get(..length)
        });
        prefix.unwrap_or(&[])
    }
}

/// The prefixes of a word, from the shortest: their lengths and their counts.
fn prefixes(events: &[u8]) -> impl Iterator<Item = (usize, [u16; MAX_EVENTS])> + '_ {
    let mut counts = [0; MAX_EVENTS];
    (0..=events.len()).map(move |length| {
        let last = length.checked_sub(1).and_then(|last| events.get(last));
        if let Some(count) = last.and_then(|&event| counts.get_mut(usize::from(event))) {
            *count += 1;
        }
        (length, counts)
    })
}
