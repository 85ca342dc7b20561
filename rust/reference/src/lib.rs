//! A second implementation of the file format, the log table, the judge, the pruning
//! of nets, conversion between the editions, the screening of words, the search for a word
//! that leads to an event, and the engine that plays words event by event, with another net
//! from some event on, in plain safe Rust.
//!
//! It is written from the product's rules alone and shares no code with the
//! proved library, so that tests can compare the two. See [`open`] and [`seal`]
//! for files, [`fresh`] and [`take`] for the log table, [`judge`] for bundles,
//! [`prune`] for bundles without idle places, [`to_new`] and [`to_old`] for bundles in the
//! other edition, [`screen`] for a word, [`screen_joined`] for a word on two nets, [`reach`]
//! for a shortest word that leads to an event, [`start`] and [`step`] for a word event by
//! event, [`replace`] for another net between two events.
//! [`log_rows`] has the same rows without a table. Bundles are read in both editions.

#![forbid(unsafe_code)]
#![deny(missing_docs)]

mod blocks;
mod editions;
mod engine;
mod judging;
mod logs;
mod parts;
mod places;
mod pruning;
mod reach;
mod reader;
mod screening;
mod tables;
mod weights;

pub use blocks::{open, seal};
pub use editions::{to_new, to_old};
pub use engine::{replace, start, step, Step};
pub use judging::{judge, Tally};
pub use logs::{log_rows, Row};
pub use pruning::prune;
pub use reach::reach;
pub use screening::{screen, screen_joined, Screened};
pub use tables::{fresh, take, Summary};

/// Why a call gave no result.
#[derive(Clone, Copy, Debug, PartialEq, Eq)]
pub struct Refusal {
    /// The number in the refusal table.
    pub number: u8,
    /// The spot that the refusal table gives for this number.
    pub spot: usize,
}
