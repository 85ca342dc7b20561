//! The places of a bundle.

use crate::reader::Reader;
use crate::tables::MAX_EVENTS;
use crate::Refusal;
use std::ops::SubAssign;

pub const MAX_PLACES: u8 = 64;

/// A place, with its numbers in a type that is wide enough for its tokens.
pub struct Place<T> {
    pub initial: T,
    /// For each event in - out.
    pub change: [T; MAX_EVENTS],
    pub out: [T; MAX_EVENTS],
}

impl<T: Copy + Default + From<u16> + SubAssign> Place<T> {
    /// Reads the places of a net over `n` events.
    pub fn read_all(reader: &mut Reader, n: u8) -> Result<Vec<Self>, Refusal> {
        let count = reader.byte(..=MAX_PLACES)?.into();
        let mut places = Vec::with_capacity(count);
        for _ in 0..count {
            places.push(Self::read(reader, n)?);
        }
        Ok(places)
    }

    fn read(reader: &mut Reader, n: u8) -> Result<Self, Refusal> {
        let mut place = Self {
            initial: reader.number(..)?.into(),
            change: [T::default(); MAX_EVENTS],
            out: [T::default(); MAX_EVENTS],
        };
        for event in 0..usize::from(n) {
            place.change[event] = reader.number(..)?.into();
        }
        for event in 0..usize::from(n) {
            place.out[event] = reader.number(..)?.into();
            place.change[event] -= place.out[event];
        }
        Ok(place)
    }
}

impl<T: Copy + PartialOrd> Place<T> {
    /// Whether the surplus is 0 or more. What the event puts into the place does
    /// not count.
    pub fn permits(&self, tokens: T, event: usize) -> bool {
        tokens >= self.out[event]
    }
}
