//! Certificates of kind 1.

use crate::judging::{Log, Step};
use crate::reader::Reader;
use crate::tables::MAX_EVENTS;
use crate::Refusal;

const MAX_TERMS: u8 = 64;
const MAX_PAIRS: u8 = 64;

/// A certificate of kind 1: k, and the sums of its terms and pairs. A term is a weight
/// g on a step (u, f), a pair a signed weight h on a completed word with the counts u.
///
/// There are at most 64 terms and 64 pairs, all numbers have at most two bytes and a
/// word has at most 255 events, so the sums stay below 2^31 and above -2^31.
pub struct Weights {
    k: i32,
    /// Whether all steps are allowed and all words completed.
    all_allowed: bool,
    /// The sum of g.
    total: i32,
    /// For each event i the sum of g × u(i) and h × u(i).
    before: [i32; MAX_EVENTS],
    /// For each event i the sum of g over the terms with f = i.
    of_event: [i32; MAX_EVENTS],
}

impl Weights {
    /// Reads a certificate after its kind, up to its last term.
    ///
    /// # Errors
    ///
    /// 6 or 7 with the offset of a field.
    // Not inlined: on its own the loop over the counts is vectorised.
    #[inline(never)]
    pub fn read(reader: &mut Reader, n: u8, log: &Log) -> Result<Self, Refusal> {
        let mut weights = Self {
            k: reader.number(1..)?.into(),
            all_allowed: true,
            total: 0,
            before: [0; MAX_EVENTS],
            of_event: [0; MAX_EVENTS],
        };
        for _ in 0..reader.byte(..=MAX_TERMS)? {
            // There are at most 256 rows.
            let row = reader.number(..log.rows() as u16)?.into();
            let event = reader.byte(..n)?.into();
            let weight = reader.number(..)?.into();
            weights.add_term(weight, Step { row, event }, log);
        }
        Ok(weights)
    }

    /// Reads the pairs of the new edition, and adds them.
    ///
    /// # Errors
    ///
    /// 6 or 7 with the offset of a field.
    #[inline(never)]
    pub fn read_pairs(&mut self, reader: &mut Reader, log: &Log) -> Result<(), Refusal> {
        for _ in 0..reader.byte(..=MAX_PAIRS)? {
            // There are at most 255 words.
            let word: usize = reader.byte(..log.completed.len() as u8)?.into();
            let weight = reader.signed()?.into();
            match log.completed[word] {
                Some(row) => self.add_counts(weight, log.counts(row)),
                None => self.all_allowed = false,
            }
        }
        Ok(())
    }

    fn add_term(&mut self, weight: i32, step: Step, log: &Log) {
        self.all_allowed &= log.allows(step);
        self.total += weight;
        self.add_counts(weight, log.counts(step.row));
        self.of_event[step.event] += weight;
    }

    fn add_counts(&mut self, weight: i32, counts: &[u16; MAX_EVENTS]) {
        for (sum, &count) in self.before.iter_mut().zip(counts) {
            *sum += weight * i32::from(count);
        }
    }

    /// Whether all steps are allowed, all words completed, and the inequalities hold
    /// for this wrong continuation.
    #[inline]
    pub fn hold(&self, step: Step, log: &Log) -> bool {
        self.all_allowed
            && self.total <= self.k
            && log.counts(step.row).iter().enumerate().all(|(i, &count)| {
                let count = i32::from(count);
                let next_count = count + i32::from(i == step.event);
                self.before[i] <= self.k * count
                    && self.before[i] + self.of_event[i] >= self.k * next_count
            })
    }
}
