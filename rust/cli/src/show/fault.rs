//! What is wrong with a bundle, in words of the net.

use super::fields::Field;
use super::log::Step;
use super::page::{count, word};
use super::reading::{Proof, Reading};
use hovmekhar::{Refusal, MAX_LOG_EVENTS, MAX_ROWS, NEW_EDITION};
use std::ops::Range;

/// The first thing that is wrong with a bundle.
#[derive(Clone, Debug, PartialEq, Eq)]
pub enum Fault {
    /// The bundle of this length ends before or inside a field.
    Cut {
        field: Field,
        offset: usize,
        length: usize,
    },
    /// A field has a value that is not of this range.
    Value {
        field: Field,
        offset: usize,
        value: usize,
        range: Range<usize>,
    },
    /// A word of so many events, after so many in the words before it.
    Events {
        word: usize,
        offset: usize,
        length: usize,
        before: usize,
    },
    /// A word with which the log would have so many rows.
    Rows {
        word: usize,
        offset: usize,
        rows: usize,
    },
    /// A place that refuses an allowed step.
    Misfit {
        place: usize,
        step: Step,
        surplus: i64,
    },
    /// A place that has so many tokens more after a completed word.
    Disobeys {
        place: usize,
        word: usize,
        change: i64,
    },
    /// A certificate of kind 0 that does not hold.
    Permits { certificate: usize },
    /// A certificate of kind 1 that does not hold.
    Weights { certificate: usize },
    /// So many bytes behind the last certificate.
    Follow { offset: usize, count: usize },
}

impl Fault {
    /// The refusal that it explains.
    pub fn refusal(&self) -> Refusal {
        let (number, spot) = match *self {
            Self::Cut { offset, .. } => (Refusal::BUNDLE_END, offset),
            Self::Value { offset, .. } => (Refusal::VALUE, offset),
            Self::Events { offset, .. } => (Refusal::EVENTS, offset),
            Self::Rows { offset, .. } => (Refusal::ROWS, offset),
            Self::Misfit { place, .. } => (Refusal::PLACE_MISFIT, place),
            Self::Disobeys { place, .. } => (Refusal::PLACE_DISOBEYS, place),
            Self::Permits { certificate } => (Refusal::PLACE_PERMITS, certificate),
            Self::Weights { certificate } => (Refusal::WEIGHTS, certificate),
            Self::Follow { offset, .. } => (Refusal::BYTES_FOLLOW, offset),
        };
        Refusal { number, spot }
    }

    /// What is wrong, in a line.
    pub fn words(&self, reading: &Reading) -> String {
        match self {
            Self::Cut { .. } | Self::Value { .. } => self.field_words(),
            Self::Events { .. } | Self::Rows { .. } => self.log_words(),
            Self::Misfit {
                place,
                step,
                surplus,
            } => {
                let step = reading.step(*step);
                format!("place {place} refuses an allowed step: {step}, surplus {surplus}")
            }
            Self::Disobeys {
                place,
                word,
                change,
            } => {
                let than = if *change < 0 { "fewer" } else { "more" };
                let tokens = count(change.unsigned_abs() as usize, "token");
                let word = reading.word(*word);
                format!("place {place} has {tokens} {than} after {word}, which is completed")
            }
            Self::Permits { certificate } | Self::Weights { certificate } => {
                let failure = reading.failure(*certificate);
                format!("certificate {certificate}: {failure}")
            }
            Self::Follow {
                offset,
                count: more,
            } => {
                let more = count(*more, "byte");
                format!("{more} behind the last certificate, from offset {offset} on")
            }
        }
    }

    /// What is wrong with a field.
    fn field_words(&self) -> String {
        match self {
            Self::Cut {
                field,
                offset,
                length,
            } => {
                let ends = before_or_inside(*offset, *length);
                format!("the bundle ends {ends} {field}, at offset {offset} of {length}")
            }
            Self::Value {
                field,
                offset,
                value,
                range,
            } => {
                let right = right_values(*field, range);
                format!("{field}, at offset {offset}, is {value}, but {right}")
            }
            _ => String::new(),
        }
    }

    /// What is wrong with the log.
    fn log_words(&self) -> String {
        match self {
            Self::Events {
                word,
                offset,
                length,
                before,
            } => {
                let all = before + length;
                let length = count(*length, "event");
                format!(
                    "word {word} at {offset} has {length}: with the {before} before it {all}, \
                     and {MAX_LOG_EVENTS} are the most"
                )
            }
            Self::Rows { word, offset, rows } => format!(
                "with word {word} at {offset} the log has {rows} rows, \
                 and {MAX_ROWS} are the most"
            ),
            _ => String::new(),
        }
    }

    /// Where the reading ended, for the foot of what was read.
    pub fn foot(&self, reading: &Reading) -> String {
        let length = reading.length;
        match self {
            Self::Cut { field, offset, .. } => {
                let where_it_ends = before_or_inside(*offset, length);
                format!("here the bundle ends, {where_it_ends} {field}")
            }
            Self::Follow { count: more, .. } => {
                format!(
                    "here the certificates end, with {} left",
                    count(*more, "byte")
                )
            }
            _ => format!(
                "here the reading ends, at offset {} of {length}",
                reading.end
            ),
        }
    }
}

fn before_or_inside(offset: usize, length: usize) -> &'static str {
    if offset < length {
        "inside"
    } else {
        "before"
    }
}

/// Which values a field may have.
fn right_values(field: Field, range: &Range<usize>) -> String {
    let last = range.end.saturating_sub(1);
    match field {
        Field::EventCount => {
            let new = usize::from(NEW_EDITION);
            let (first, last_new) = (new + range.start, new + last);
            format!(
                "must be {} to {last}, or {first} to {last_new} in the new edition",
                range.start
            )
        }
        Field::Listed { .. } if range.is_empty() => "there are no places".into(),
        Field::PairWord { .. } if range.is_empty() => "there are no words".into(),
        _ if range.start == last => format!("must be {last}"),
        _ => format!("must be {} to {last}", range.start),
    }
}

impl Reading {
    /// A step in words: `event 1 after 0 0 (row 3)`.
    pub fn step(&self, step: Step) -> String {
        let Step { row, event } = step;
        match &self.log {
            Some(log) => format!("event {event} after {} (row {row})", word(log.first(row))),
            None => format!("event {event} after row {row}"),
        }
    }

    /// A word of the log in words: `word 1 (0 0 1)`.
    fn word(&self, number: usize) -> String {
        let words = self.log.as_ref().map(|log| &log.words);
        match words.and_then(|words| words.get(number)) {
            Some(taken) => format!("word {number} ({})", word(&taken.events)),
            None => format!("word {number}"),
        }
    }

    /// Why a certificate does not hold.
    fn failure(&self, number: usize) -> String {
        let (Some(log), Some(certificate)) = (&self.log, self.certificates.get(number)) else {
            return "not read".into();
        };
        let step = self.step(certificate.step);
        match &certificate.proof {
            Proof::Place { place, surplus } => {
                format!("{step}, named place {place}, surplus {surplus}: the place permits it")
            }
            Proof::Weights(weights) => {
                let why = match weights.wrong_term(log) {
                    Some((term, wrong)) => {
                        format!("term {term} has {}, which is not allowed", self.step(wrong))
                    }
                    None => match weights.wrong_pair(log) {
                        Some((pair, word)) => {
                            format!("pair {pair} has {}, which is partial", self.word(word))
                        }
                        None => weights.first_failure(certificate.step, log),
                    },
                };
                format!("{step}: {why}")
            }
        }
    }
}
