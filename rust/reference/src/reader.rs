//! Reading a bundle field by field.

use crate::tables::{MAX_EVENTS, MAX_LOG_EVENTS};
use crate::Refusal;
use std::ops::RangeBounds;

/// By how much the first byte of the new edition is above the event count.
pub const NEW: u8 = 128;

/// Which fields a bundle has.
#[derive(Clone, Copy, PartialEq, Eq)]
pub enum Edition {
    /// No word is completed.
    Old,
    /// Each word has a mark, and each certificate of kind 1 a list of pairs.
    New,
}

impl Edition {
    /// The edition and the event count that a first byte stands for, which may be out of
    /// range.
    pub fn of(first: u8) -> (Self, u8) {
        match first.checked_sub(NEW) {
            Some(n) => (Self::New, n),
            None => (Self::Old, first),
        }
    }
}

/// A word of a log.
pub struct Word<'b> {
    pub events: &'b [u8],
    pub is_completed: bool,
    /// The offset of its length.
    pub spot: usize,
}

/// The fields of a bundle, from the first one that is not read yet.
pub struct Reader<'b> {
    bundle: &'b [u8],
    offset: usize,
}

impl<'b> Reader<'b> {
    /// A reader at the front of a bundle.
    pub fn new(bundle: &'b [u8]) -> Self {
        Self { bundle, offset: 0 }
    }

    /// The next field, which has one byte.
    ///
    /// # Errors
    ///
    /// With the field's offset: 6 when it is missing, 7 when its value is outside
    /// the range.
    #[inline]
    pub fn byte(&mut self, range: impl RangeBounds<u8>) -> Result<u8, Refusal> {
        let spot = self.offset;
        let [value] = self.field()?;
        if range.contains(&value) {
            Ok(value)
        } else {
            Err(Refusal { number: 7, spot })
        }
    }

    /// The next field, which has two bytes.
    ///
    /// # Errors
    ///
    /// With the field's offset: 6 when it is missing or cut, 7 when its value is
    /// outside the range.
    #[inline]
    pub fn number(&mut self, range: impl RangeBounds<u16>) -> Result<u16, Refusal> {
        let spot = self.offset;
        let value = u16::from_le_bytes(self.field()?);
        if range.contains(&value) {
            Ok(value)
        } else {
            Err(Refusal { number: 7, spot })
        }
    }

    /// The next `count` fields, which have two bytes, as the part of the bundle that they
    /// occupy.
    ///
    /// # Errors
    ///
    /// 6 with the offset of the first that is missing or cut.
    pub fn numbers(&mut self, count: usize) -> Result<&'b [u8], Refusal> {
        let rest = &self.bundle[self.offset..];
        let whole = count.min(rest.len() / 2);
        self.offset += 2 * whole;
        if whole < count {
            return Err(self.ends());
        }
        Ok(&rest[..2 * count])
    }

    /// The next field, which has two bytes in two's complement.
    ///
    /// # Errors
    ///
    /// 6 with the field's offset when it is missing or cut.
    #[inline]
    pub fn signed(&mut self) -> Result<i16, Refusal> {
        Ok(i16::from_le_bytes(self.field()?))
    }

    /// The first field: the edition and the event count.
    ///
    /// # Errors
    ///
    /// 7 when no edition has this byte, 6 when there is none.
    pub fn event_count(&mut self) -> Result<(Edition, u8), Refusal> {
        let spot = self.offset;
        let (edition, n) = Edition::of(self.byte(..)?);
        if (1..=MAX_EVENTS as u8).contains(&n) {
            Ok((edition, n))
        } else {
            Err(Refusal { number: 7, spot })
        }
    }

    /// The next `length` fields, which are events below `n`, as the part of the
    /// bundle that they occupy.
    ///
    /// # Errors
    ///
    /// With the offset of the first that is missing or not below `n`: 6 or 7.
    fn events(&mut self, length: usize, n: u8) -> Result<&'b [u8], Refusal> {
        let rest = &self.bundle[self.offset..];
        let events = &rest[..length.min(rest.len())];
        if let Some(position) = events.iter().position(|&event| event >= n) {
            return Err(Refusal {
                number: 7,
                spot: self.offset + position,
            });
        }
        self.offset += events.len();
        if events.len() < length {
            return Err(self.ends());
        }
        Ok(events)
    }

    /// The words of a log over `n` events. Hands each to `take`.
    ///
    /// # Errors
    ///
    /// 6 or 7 with the offset of a field, 8 with the offset of the length with which
    /// the events would pass 1,024, or what `take` refused.
    pub fn words(
        &mut self,
        edition: Edition,
        n: u8,
        mut take: impl FnMut(Word<'b>) -> Result<(), Refusal>,
    ) -> Result<(), Refusal> {
        let mut count = 0;
        for _ in 0..self.byte(..)? {
            let spot = self.offset;
            let length = self.byte(..)?.into();
            count += length;
            if count > MAX_LOG_EVENTS {
                return Err(Refusal { number: 8, spot });
            }
            let is_completed = edition == Edition::New && self.byte(..=1)? == 1;
            let events = self.events(length, n)?;
            take(Word {
                events,
                is_completed,
                spot,
            })?;
        }
        Ok(())
    }

    /// Checks that no byte is left.
    ///
    /// # Errors
    ///
    /// 13 with the offset of the first byte that is.
    pub fn finish(self) -> Result<(), Refusal> {
        if self.offset == self.bundle.len() {
            Ok(())
        } else {
            Err(Refusal {
                number: 13,
                spot: self.offset,
            })
        }
    }

    #[inline]
    fn field<const SIZE: usize>(&mut self) -> Result<[u8; SIZE], Refusal> {
        let Some(&bytes) = self.bundle[self.offset..].first_chunk() else {
            return Err(self.ends());
        };
        self.offset += SIZE;
        Ok(bytes)
    }

    /// The refusal of a bundle that ends before or inside the next field.
    #[cold]
    fn ends(&self) -> Refusal {
        Refusal {
            number: 6,
            spot: self.offset,
        }
    }
}
