//! Reading a bundle field by field, with the name and the offset of each.

use super::fault::Fault;
use hovmekhar::{MAX_EVENTS, NEW_EDITION};
use std::fmt;
use std::ops::Range;

/// A field of a bundle. The numbers of words, places, certificates, terms and pairs
/// count from 0, and so do the positions of events.
#[derive(Clone, Copy, Debug, PartialEq, Eq)]
pub enum Field {
    EventCount,
    WordCount,
    Length { word: usize },
    Mark { word: usize },
    Event { word: usize, position: usize },
    PlaceCount,
    Initial { place: usize },
    In { place: usize, event: usize },
    Out { place: usize, event: usize },
    Kind { certificate: usize },
    Listed { certificate: usize },
    K { certificate: usize },
    TermCount { certificate: usize },
    TermRow { certificate: usize, term: usize },
    TermEvent { certificate: usize, term: usize },
    Weight { certificate: usize, term: usize },
    PairCount { certificate: usize },
    PairWord { certificate: usize, pair: usize },
    PairWeight { certificate: usize, pair: usize },
}

impl fmt::Display for Field {
    fn fmt(&self, f: &mut fmt::Formatter<'_>) -> fmt::Result {
        match *self {
            Self::EventCount => write!(f, "the first byte"),
            Self::WordCount => write!(f, "the word count"),
            Self::Length { word } => write!(f, "the length of word {word}"),
            Self::Mark { word } => write!(f, "the mark of word {word}"),
            Self::Event { word, position } => {
                write!(f, "the event at position {position} of word {word}")
            }
            Self::PlaceCount => write!(f, "the place count"),
            Self::Initial { place } => write!(f, "m of place {place}"),
            Self::In { place, event } => write!(f, "in({event}) of place {place}"),
            Self::Out { place, event } => write!(f, "out({event}) of place {place}"),
            Self::Kind { certificate } => write!(f, "the kind of certificate {certificate}"),
            Self::Listed { certificate } => write!(f, "the place of certificate {certificate}"),
            Self::K { certificate } => write!(f, "k of certificate {certificate}"),
            Self::TermCount { certificate } => {
                write!(f, "the term count of certificate {certificate}")
            }
            Self::TermRow { certificate, term } => {
                write!(f, "the row of term {term} of certificate {certificate}")
            }
            Self::TermEvent { certificate, term } => {
                write!(f, "the event of term {term} of certificate {certificate}")
            }
            Self::Weight { certificate, term } => {
                write!(f, "the weight of term {term} of certificate {certificate}")
            }
            Self::PairCount { certificate } => {
                write!(f, "the pair count of certificate {certificate}")
            }
            Self::PairWord { certificate, pair } => {
                write!(f, "the word of pair {pair} of certificate {certificate}")
            }
            Self::PairWeight { certificate, pair } => {
                write!(f, "the weight of pair {pair} of certificate {certificate}")
            }
        }
    }
}

/// A bundle, and the offset of its next field.
pub struct Cursor<'b> {
    bundle: &'b [u8],
    offset: usize,
}

impl<'b> Cursor<'b> {
    /// At the front of a bundle.
    pub fn new(bundle: &'b [u8]) -> Self {
        Self { bundle, offset: 0 }
    }

    /// The offset of the next field.
    pub fn offset(&self) -> usize {
        self.offset
    }

    /// The event count, and whether the edition is the new one.
    pub fn event_count(&mut self) -> Result<(usize, bool), Fault> {
        let new = usize::from(NEW_EDITION);
        match self.byte(Field::EventCount, new + 1..new + MAX_EVENTS + 1) {
            Ok(first) => Ok((first - new, true)),
            Err(_) => Ok((self.byte(Field::EventCount, 1..MAX_EVENTS + 1)?, false)),
        }
    }

    /// A field of one byte, with a value of this range.
    pub fn byte(&mut self, field: Field, range: Range<usize>) -> Result<usize, Fault> {
        self.field(field, 1, range)
    }

    /// A field of one byte, with any value.
    pub fn any_byte(&mut self, field: Field) -> Result<usize, Fault> {
        self.field(field, 1, 0..256)
    }

    /// A field of two bytes, with a value of this range.
    pub fn number(&mut self, field: Field, range: Range<usize>) -> Result<usize, Fault> {
        self.field(field, 2, range)
    }

    /// A field of two bytes, with any value.
    pub fn any_number(&mut self, field: Field) -> Result<usize, Fault> {
        self.field(field, 2, 0..65_536)
    }

    /// A field of two bytes in two's complement.
    pub fn signed(&mut self, field: Field) -> Result<i64, Fault> {
        let value = self.any_number(field)? as i64;
        Ok(if value < 32_768 {
            value
        } else {
            value - 65_536
        })
    }

    /// Checks that nothing follows.
    pub fn finish(&self) -> Result<(), Fault> {
        match self.bundle.len() - self.offset {
            0 => Ok(()),
            count => Err(Fault::Follow {
                offset: self.offset,
                count,
            }),
        }
    }

    /// A field of so many bytes, the low one first.
    fn field(&mut self, field: Field, size: usize, range: Range<usize>) -> Result<usize, Fault> {
        let offset = self.offset;
        let Some(bytes) = self.bundle.get(offset..offset + size) else {
            return Err(Fault::Cut {
                field,
                offset,
                length: self.bundle.len(),
            });
        };
        let add_high = |low, &byte: &u8| 256 * low + usize::from(byte);
        let value = bytes.iter().rev().fold(0, add_high);
        if !range.contains(&value) {
            return Err(Fault::Value {
                field,
                offset,
                value,
                range,
            });
        }
        self.offset += size;
        Ok(value)
    }
}
