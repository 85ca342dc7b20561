//! Reading a bundle field by field: a further reading of the rules besides the
//! reference, kept as close to their wording as possible and without regard to
//! speed.

use crate::logs::{counts_below, MAX_LOG_EVENTS};
use crate::places::Place;
use crate::run::{refusal, Outcome};
use reference::log_rows;

/// The log of a bundle.
pub struct Log {
    /// Its words.
    pub words: Vec<Vec<u8>>,
    /// In the new edition for each word whether it is completed.
    pub marks: Option<Vec<bool>>,
}

impl Log {
    /// How often each event below `n` occurs in a word, where it is completed. Nothing
    /// for a partial word.
    pub fn completed(&self, n: usize, word: usize) -> Option<Vec<usize>> {
        if !self.marks.as_ref()?[word] {
            return None;
        }
        Some(counts_below(n, &self.words[word]))
    }
}

/// A bundle, and the offset of its next field.
pub struct Fields<'b> {
    bundle: &'b [u8],
    next: usize,
}

impl<'b> Fields<'b> {
    /// All fields of a bundle.
    pub fn new(bundle: &'b [u8]) -> Self {
        Self { bundle, next: 0 }
    }

    /// A field of one byte or two, with the low byte first, and its offset.
    pub fn field(&mut self, size: usize) -> Outcome<(usize, usize)> {
        let offset = self.next;
        if offset + size > self.bundle.len() {
            return refusal(6, offset);
        }
        self.next += size;
        let bytes = &self.bundle[offset..self.next];
        let value = bytes
            .iter()
            .rev()
            .fold(0, |value, &byte| 256 * value + usize::from(byte));
        Ok((value, offset))
    }

    /// A field of this size whose value has to be in the range.
    pub fn within(&mut self, size: usize, least: usize, most: usize) -> Outcome {
        let (value, offset) = self.field(size)?;
        if value < least || value > most {
            return refusal(7, offset);
        }
        Ok(value)
    }

    /// A field of this size that has to name one of `count` things.
    pub fn one_of(&mut self, size: usize, count: usize) -> Outcome {
        let (value, offset) = self.field(size)?;
        if value >= count {
            return refusal(7, offset);
        }
        Ok(value)
    }

    /// The first field: the event count, and whether the edition is the new one.
    pub fn event_count(&mut self) -> Outcome<(usize, bool)> {
        let (value, offset) = self.field(1)?;
        match value {
            1..=12 => Ok((value, false)),
            129..=140 => Ok((value - 128, true)),
            _ => refusal(7, offset),
        }
    }

    /// A field of two bytes in two's complement.
    pub fn signed(&mut self) -> Outcome<i32> {
        let value = self.field(2)?.0 as i32;
        Ok(if value < 32_768 {
            value
        } else {
            value - 65_536
        })
    }

    /// The words of a log, which may have so many rows, and in the new edition their
    /// marks.
    pub fn log(&mut self, n: usize, is_new: bool, most_rows: usize) -> Outcome<Log> {
        let mut words: Vec<Vec<u8>> = Vec::new();
        let mut marks = Vec::new();
        let mut events = 0;
        for _ in 0..self.within(1, 0, 255)? {
            let (length, offset) = self.field(1)?;
            events += length;
            if events > MAX_LOG_EVENTS {
                return refusal(8, offset);
            }
            if is_new {
                marks.push(self.within(1, 0, 1)? == 1);
            }
            let mut word = Vec::new();
            for _ in 0..length {
                word.push(self.one_of(1, n)? as u8);
            }
            words.push(word);
            // There is the row of the empty prefix, and at most one for each event.
            if events + 1 > most_rows && log_rows(n, &words).len() > most_rows {
                return refusal(9, offset);
            }
        }
        let marks = is_new.then_some(marks);
        Ok(Log { words, marks })
    }

    /// The places of a net.
    pub fn places(&mut self, n: usize) -> Outcome<Vec<Place>> {
        let mut places = Vec::new();
        for _ in 0..self.within(1, 0, 64)? {
            places.push(self.place(n)?);
        }
        Ok(places)
    }

    fn place(&mut self, n: usize) -> Outcome<Place> {
        let mut numbers = Vec::new();
        for _ in 0..1 + n + n {
            numbers.push(self.field(2)?.0 as i128);
        }
        Ok(Place {
            m: numbers[0],
            ins: numbers[1..1 + n].to_vec(),
            outs: numbers[1 + n..].to_vec(),
        })
    }

    /// Checks that nothing follows.
    pub fn finish(&self) -> Outcome<()> {
        if self.next < self.bundle.len() {
            return refusal(13, self.next);
        }
        Ok(())
    }
}
