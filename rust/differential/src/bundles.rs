//! Bundles: their parts, and the fields that these are written as.

mod known;

use crate::files::MAX_BUNDLE_SIZE;
use std::ops::Range;

pub use known::{five_long_words, one_for_each_answer, unbalanced};
pub use known::{
    SAMPLE_A, SAMPLE_A_NEW, SAMPLE_E, SAMPLE_F, SAMPLE_G, SAMPLE_H, SAMPLE_LONGER, SAMPLE_NEW,
};

/// The largest number of words.
pub const MAX_WORDS: usize = 255;
/// The largest number of events in a word.
pub const MAX_LENGTH: usize = 255;
/// The largest number of places.
pub const MAX_PLACES: usize = 64;
/// The largest number of terms in a certificate.
pub const MAX_TERMS: usize = 64;
/// The largest number of pairs in a certificate.
pub const MAX_PAIRS: usize = 64;
/// By how much the first byte of the new edition is above the event count.
pub const NEW: usize = 128;

/// What a bundle says. It may be one that has to be refused, as long as there are
/// bytes for it.
#[derive(Clone, Debug, PartialEq, Eq)]
pub struct Bundle {
    /// The event count.
    pub n: usize,
    /// The log.
    pub words: Vec<Vec<u8>>,
    /// In the new edition for each word whether it is completed; a word without a mark
    /// is partial.
    pub marks: Option<Vec<bool>>,
    /// The net.
    pub places: Vec<Place>,
    /// One certificate for each wrong continuation.
    pub certificates: Vec<Certificate>,
}

/// A place, with a number for each event in `ins` and in `outs`.
#[derive(Clone, Debug, PartialEq, Eq)]
pub struct Place {
    /// The initial tokens.
    pub m: u16,
    /// The tokens that each event puts into the place.
    pub ins: Vec<u16>,
    /// The tokens that each event takes out of the place.
    pub outs: Vec<u16>,
}

/// A certificate for a wrong continuation.
#[derive(Clone, Debug, PartialEq, Eq)]
pub enum Certificate {
    /// Kind 0: a place that refuses it.
    Place(u8),
    /// Kind 1: weights that show that no fitting place does.
    Weights {
        /// What the weights add up to.
        k: u16,
        /// The weights.
        terms: Vec<Term>,
        /// The weights on completed words, in the new edition.
        pairs: Vec<Pair>,
    },
}

impl Certificate {
    /// The weights on completed words.
    pub fn pairs(&self) -> &[Pair] {
        match self {
            Certificate::Place(_) => &[],
            Certificate::Weights { pairs, .. } => pairs,
        }
    }
}

/// A weight on a step.
#[derive(Clone, Copy, Debug, PartialEq, Eq)]
pub struct Term {
    /// The step's row.
    pub row: u16,
    /// The step's event.
    pub event: u8,
    /// The weight.
    pub weight: u16,
}

/// A signed weight on a completed word.
#[derive(Clone, Copy, Debug, PartialEq, Eq)]
pub struct Pair {
    /// The word's number.
    pub word: u8,
    /// The weight.
    pub weight: i16,
}

/// What a field of a bundle holds.
#[derive(Clone, Copy, Debug, PartialEq, Eq)]
pub enum Field {
    /// The event count.
    EventCount,
    /// How many words there are.
    WordCount,
    /// How many events a word has.
    Length,
    /// Whether a word is completed, in the new edition.
    Mark,
    /// An event of a word.
    Event,
    /// How many places there are.
    PlaceCount,
    /// The initial tokens of a place.
    Initial,
    /// What an event puts into a place.
    In,
    /// What an event takes out of a place.
    Out,
    /// The kind of a certificate.
    Kind,
    /// The place that a certificate lists.
    Listed,
    /// The k of a certificate.
    K,
    /// How many terms a certificate has.
    TermCount,
    /// The row of a term.
    TermRow,
    /// The event of a term.
    TermEvent,
    /// The weight of a term.
    Weight,
    /// How many pairs a certificate has, in the new edition.
    PairCount,
    /// The word of a pair.
    PairWord,
    /// The weight of a pair.
    PairWeight,
}

/// The bytes of a bundle, and where its fields are.
#[derive(Clone, Debug, Default)]
pub struct Layout {
    /// The bytes.
    pub bytes: Vec<u8>,
    /// The fields in turn, and the bytes that each has.
    pub fields: Vec<(Field, Range<usize>)>,
    /// Where the last place ends.
    pub places_end: usize,
    /// Where each certificate ends.
    pub certificate_ends: Vec<usize>,
}

impl Layout {
    fn byte(&mut self, field: Field, value: usize) {
        assert!(value < 256, "{field:?} {value}");
        self.field(field, &[value as u8]);
    }

    fn number(&mut self, field: Field, value: u16) {
        self.field(field, &[(value % 256) as u8, (value / 256) as u8]);
    }

    fn field(&mut self, field: Field, bytes: &[u8]) {
        let start = self.bytes.len();
        self.bytes.extend(bytes);
        self.fields.push((field, start..self.bytes.len()));
    }

    /// The fields of this kind.
    pub fn all(&self, field: Field) -> Vec<Range<usize>> {
        self.fields
            .iter()
            .filter(|(other, _)| *other == field)
            .map(|(_, range)| range.clone())
            .collect()
    }
}

impl Bundle {
    /// The bytes and the fields.
    pub fn layout(&self) -> Layout {
        let mut layout = Layout::default();
        let edition = if self.is_new() { NEW } else { 0 };
        layout.byte(Field::EventCount, edition + self.n);
        layout.byte(Field::WordCount, self.words.len());
        for (number, word) in self.words.iter().enumerate() {
            layout.byte(Field::Length, word.len());
            if self.is_new() {
                layout.byte(Field::Mark, self.is_completed(number).into());
            }
            for &event in word {
                layout.byte(Field::Event, event.into());
            }
        }
        layout.byte(Field::PlaceCount, self.places.len());
        for place in &self.places {
            layout.number(Field::Initial, place.m);
            for &number in &place.ins {
                layout.number(Field::In, number);
            }
            for &number in &place.outs {
                layout.number(Field::Out, number);
            }
        }
        layout.places_end = layout.bytes.len();
        for certificate in &self.certificates {
            match certificate {
                Certificate::Place(place) => {
                    layout.byte(Field::Kind, 0);
                    layout.byte(Field::Listed, (*place).into());
                }
                Certificate::Weights { k, terms, pairs } => {
                    layout.byte(Field::Kind, 1);
                    layout.number(Field::K, *k);
                    layout.byte(Field::TermCount, terms.len());
                    for term in terms {
                        layout.number(Field::TermRow, term.row);
                        layout.byte(Field::TermEvent, term.event.into());
                        layout.number(Field::Weight, term.weight);
                    }
                    self.lay_pairs(&mut layout, pairs);
                }
            }
            layout.certificate_ends.push(layout.bytes.len());
        }
        layout
    }

    fn lay_pairs(&self, layout: &mut Layout, pairs: &[Pair]) {
        if !self.is_new() {
            assert!(pairs.is_empty(), "the old edition has no pairs");
            return;
        }
        layout.byte(Field::PairCount, pairs.len());
        for pair in pairs {
            layout.byte(Field::PairWord, pair.word.into());
            layout.number(Field::PairWeight, pair.weight as u16);
        }
    }

    /// Whether it has the new edition.
    pub fn is_new(&self) -> bool {
        self.marks.is_some()
    }

    /// Whether the word with this number is completed.
    pub fn is_completed(&self, word: usize) -> bool {
        let marks = self.marks.as_deref().unwrap_or_default();
        marks.get(word) == Some(&true)
    }

    /// The bytes.
    pub fn bytes(&self) -> Vec<u8> {
        self.layout().bytes
    }

    /// Whether the bytes are not too many.
    pub fn has_allowed_length(&self) -> bool {
        self.bytes().len() <= MAX_BUNDLE_SIZE
    }
}
