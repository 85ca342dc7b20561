//! Logs, and tables to take their words with.
//!
//! The readings of the rules here are further ones besides the reference, kept
//! as close to their wording as possible and without regard to speed. The tests
//! know from them what a call has to answer, apart from what the reference says.

use crate::rng::Rng;
use crate::run::{refusal, Outcome};
use reference::{log_rows, Summary};
use std::ops::RangeInclusive;

/// The largest event count, and the counts of a row.
pub const MAX_EVENTS: usize = 12;
/// Numbers of a row: the counts, the mask and the traffic.
pub const ROW: usize = 14;
/// Where a row has its traffic.
pub const TRAFFIC: usize = 13;
/// The largest number of rows.
pub const MAX_ROWS: usize = 256;
/// Numbers of a table.
pub const TABLE: usize = 3_584;
/// The largest number of events in a log.
pub const MAX_LOG_EVENTS: usize = 1_024;

/// The table of a log by the definition of its rows, zero up to its end.
pub fn table_of(n: usize, words: &[Vec<u8>]) -> Vec<u16> {
    let mut table = Vec::new();
    for row in log_rows(n, words) {
        let mut numbers = [0; ROW];
        numbers[TRAFFIC] = row.traffic.min(65_535) as u16;
        for (event, (&count, &allowed)) in row.counts.iter().zip(&row.allowed).enumerate() {
            numbers[event] = count as u16;
            if allowed {
                numbers[MAX_EVENTS] += 1 << event;
            }
        }
        table.extend(numbers);
    }
    table.resize(TABLE, 0);
    table
}

/// How often each event occurs in a prefix.
pub fn counts_of(prefix: &[u8]) -> [u16; MAX_EVENTS] {
    let mut counts = [0; MAX_EVENTS];
    for &event in prefix {
        counts[usize::from(event)] += 1;
    }
    counts
}

/// How often each event below `n` occurs in a word.
pub fn counts_below(n: usize, word: &[u8]) -> Vec<usize> {
    let count = |event: u8| word.iter().filter(|&&other| other == event).count();
    (0u8..).take(n).map(count).collect()
}

/// The counts in a row of a table.
pub fn counts_at(table: &[u16], row: usize) -> &[u16] {
    &table[row * ROW..][..MAX_EVENTS]
}

/// The mask in a row of a table.
pub fn mask_at(table: &[u16], row: usize) -> u16 {
    table[row * ROW + MAX_EVENTS]
}

/// The traffic in a row of a table.
pub fn traffic_at(table: &[u16], row: usize) -> u16 {
    table[row * ROW + TRAFFIC]
}

/// Takes a word step by step, with a table of any contents. The summary, the
/// word's events and the table's length are as they should be, and the events do
/// not pass 1,024, so only the rows can be too many.
pub fn take_step_by_step(
    summary: Summary,
    word: &[u8],
    table: &[u16],
) -> (Outcome<Summary>, Vec<u16>) {
    let mut next = table.to_vec();
    let mut rows = summary.rows;
    for end in 0..=word.len() {
        let counts = counts_of(&word[..end]);
        let lowest = (0..rows).find(|&row| counts_at(&next, row) == counts);
        let used = match lowest {
            Some(row) => row,
            None if rows == MAX_ROWS => return (refusal(9, 0), table.to_vec()),
            None => {
                next[rows * ROW..][..MAX_EVENTS].copy_from_slice(&counts);
                next[rows * ROW + MAX_EVENTS] = 0;
                next[rows * ROW + TRAFFIC] = 0;
                rows += 1;
                rows - 1
            }
        };
        // 65,535 stays.
        let traffic = &mut next[used * ROW + TRAFFIC];
        *traffic = traffic.saturating_add(1);
        if end < word.len() {
            next[used * ROW + MAX_EVENTS] |= 1 << word[end];
        }
    }
    let summary = Summary {
        n: summary.n,
        rows,
        events: summary.events + word.len(),
    };
    (Ok(summary), next)
}

/// A word of random events below `n`.
pub fn random_word(rng: &mut Rng, n: usize, length: RangeInclusive<usize>) -> Vec<u8> {
    let length = rng.within(length);
    (0..length).map(|_| rng.below(n) as u8).collect()
}

/// What the words of a log are like.
#[derive(Clone, Copy, Debug, PartialEq, Eq)]
pub enum Shape {
    /// Many words of few events.
    Short,
    /// Few words of many events.
    Long,
    /// The events of one word in many orders, so that counts coincide.
    Orders,
    /// Beginnings of one word, each with an end of its own.
    Beginnings,
    /// Words of a single event.
    Single,
    /// Words of equal events.
    Equal,
    /// Words of all these kinds, and empty ones.
    Mixed,
}

impl Shape {
    /// All of them.
    pub const ALL: [Shape; 7] = [
        Shape::Short,
        Shape::Long,
        Shape::Orders,
        Shape::Beginnings,
        Shape::Single,
        Shape::Equal,
        Shape::Mixed,
    ];

    /// The words of a log over `n` events. Some logs are small; others have as
    /// many events as are allowed, and a few more.
    pub fn words(self, rng: &mut Rng, n: usize) -> Vec<Vec<u8>> {
        let events_wanted = rng.choose(&[10, 100, MAX_LOG_EVENTS, MAX_LOG_EVENTS + 100]);
        let base_length = rng.choose(&[3, 6, 12, 100]);
        let base = random_word(rng, n, base_length..=base_length);
        let mut words = Vec::new();
        let mut events = 0;
        while events < events_wanted {
            let word = self.word(rng, n, &base);
            events += word.len();
            words.push(word);
        }
        words
    }

    /// A word over `n` events, of the base where the shape has one.
    fn word(self, rng: &mut Rng, n: usize, base: &[u8]) -> Vec<u8> {
        match self {
            Shape::Short => random_word(rng, n, 0..=6),
            Shape::Long => random_word(rng, n, 40..=255),
            Shape::Orders => rng.shuffled(base),
            Shape::Beginnings => {
                let beginning = &base[..rng.within(0..=base.len())];
                [beginning, &random_word(rng, n, 0..=3)].concat()
            }
            Shape::Single => random_word(rng, n, 1..=1),
            Shape::Equal => {
                let length = rng.choose(&[1, 2, 5, 30, 255]);
                vec![rng.below(n) as u8; length]
            }
            Shape::Mixed => match rng.below(4) {
                0 => Vec::new(),
                // Any of the others.
                _ => rng.choose(&Shape::ALL[..6]).word(rng, n, base),
            },
        }
    }
}

/// What a table holds that does not come from a log.
#[derive(Clone, Copy, Debug, PartialEq, Eq)]
pub enum Contents {
    /// Any numbers.
    Noise,
    /// Counts that are mostly 0 and else 1 or 2, so that rows are often equal to
    /// each other and to the counts of short prefixes; any masks and traffic.
    Small,
    /// Rows with the counts of a word's prefixes, in any order and often several
    /// times, every second one with one count changed; any masks and traffic.
    NearPrefixes,
}

impl Contents {
    /// All three.
    pub const ALL: [Contents; 3] = [Contents::Noise, Contents::Small, Contents::NearPrefixes];

    /// A table of this length, at least 3,584, to take a word over `n` events.
    pub fn table(self, rng: &mut Rng, n: usize, word: &[u8], length: usize) -> Vec<u16> {
        let mut table: Vec<u16> = rng.items(length);
        for row in table[..TABLE].chunks_exact_mut(ROW) {
            // Every second traffic is near the largest number, or is it.
            if rng.below(2) == 0 {
                row[TRAFFIC] = rng.choose(&[65_533, 65_534, 65_535]);
            }
            let counts = &mut row[..MAX_EVENTS];
            match self {
                Contents::Noise => (),
                Contents::Small => {
                    counts.fill_with(|| rng.choose(&[0, 0, 0, 0, 0, 0, 0, 0, 0, 0, 1, 2]));
                }
                Contents::NearPrefixes => {
                    let end = rng.within(0..=word.len());
                    counts.copy_from_slice(&counts_of(&word[..end]));
                    if rng.below(2) == 0 {
                        change_one(rng, n, counts);
                    }
                }
            }
        }
        table
    }
}

/// Changes one count: any of the twelve, often the last or the first from `n` on.
fn change_one(rng: &mut Rng, n: usize, counts: &mut [u16]) {
    let any = rng.below(MAX_EVENTS);
    let count = &mut counts[rng.choose(&[any, any, n.min(MAX_EVENTS - 1), MAX_EVENTS - 1])];
    *count ^= rng.choose(&[1, 2, 256, 32_768, 65_535]);
}

/// Numbers that are not 1 to 12. Some of them are, when their high bits are lost.
pub const WRONG_N: [usize; 10] = [
    0,
    13,
    14,
    255,
    256,
    256 + 3,
    (1 << 16) + 2,
    (1 << 32) + 1,
    (1 << 63) + 12,
    usize::MAX,
];

/// Numbers that are not 1 to 256. Some of them are, when their high bits are lost.
pub const WRONG_ROWS: [usize; 9] = [
    0,
    257,
    258,
    3_584,
    (1 << 16) + 1,
    (1 << 32) + 1,
    (1 << 32) + 256,
    (1 << 63) + 2,
    usize::MAX,
];

/// Numbers above 1,024. Some of them are not, when their high bits are lost, or
/// when a word's length is added.
pub const WRONG_EVENTS: [usize; 8] = [
    1_025,
    1_026,
    2_048,
    1 << 16,
    1 << 32,
    (1 << 63) + 5,
    usize::MAX - 1,
    usize::MAX,
];
