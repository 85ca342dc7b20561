//! Places.

use super::fault::Fault;
use super::fields::{Cursor, Field};
use super::log::{Log, Step};

/// A place. All its numbers have two bytes and a word has at most 255 events, so a
/// surplus stays far inside 64 bits.
pub struct Place {
    /// The offset of m.
    pub offset: usize,
    /// The initial tokens.
    pub m: i64,
    /// What each event puts into it.
    pub ins: Vec<i64>,
    /// What each event takes out of it.
    pub outs: Vec<i64>,
}

impl Place {
    /// Reads the place with this number.
    pub fn read(cursor: &mut Cursor, place: usize, n: usize) -> Result<Self, Fault> {
        let offset = cursor.offset();
        let mut number = |field| cursor.any_number(field).map(|number| number as i64);
        Ok(Self {
            offset,
            m: number(Field::Initial { place })?,
            ins: (0..n)
                .map(|event| number(Field::In { place, event }))
                .collect::<Result<_, _>>()?,
            outs: (0..n)
                .map(|event| number(Field::Out { place, event }))
                .collect::<Result<_, _>>()?,
        })
    }

    /// What is left of its tokens when an event after the counts of a row takes its
    /// own; below 0 the place refuses the step.
    pub fn surplus(&self, step: Step, log: &Log) -> i64 {
        let changes = self.ins.iter().zip(&self.outs);
        let sum: i64 = changes
            .zip(log.counts(step.row))
            .map(|((puts, takes), &count)| i64::from(count) * (puts - takes))
            .sum();
        self.m + sum - self.outs[step.event]
    }

    /// The first completed word after which it does not have its initial tokens, if there
    /// is one, and how many more it then has.
    pub fn disobeyed(&self, log: &Log) -> Option<(usize, i64)> {
        let completed = log.words.iter().enumerate();
        let mut completed = completed.filter(|(_, word)| word.completed);
        completed.find_map(|(number, word)| {
            let changes = self.ins.iter().zip(&self.outs);
            let products = changes
                .zip(word.counts(log.n()))
                .map(|((puts, takes), count)| count * (puts - takes));
            let change: i64 = products.sum();
            (change != 0).then_some((number, change))
        })
    }

    /// The first allowed step that it refuses, if it refuses one.
    pub fn misfit(&self, log: &Log) -> Option<(Step, i64)> {
        let steps = log.steps(true).into_iter();
        let mut surpluses = steps.map(|step| (step, self.surplus(step, log)));
        surpluses.find(|&(_, surplus)| surplus < 0)
    }
}
