//! The log table.
//!
//! A row is 14 numbers: how often each of the twelve possible events occurs in a
//! prefix, then a mask of the events that follow such a prefix, then the row's
//! traffic: how many words have such a prefix.

use crate::Refusal;
use std::collections::HashMap;
use std::iter;

pub(crate) const MAX_EVENTS: usize = 12;
pub(crate) const MASK: usize = MAX_EVENTS;
pub(crate) const TRAFFIC: usize = MASK + 1;
pub(crate) const ROW: usize = TRAFFIC + 1;
pub(crate) const MAX_ROWS: usize = 256;
const TABLE: usize = MAX_ROWS * ROW;
pub(crate) const MAX_LOG_EVENTS: usize = 1_024;

/// How long a word is when it is worth a map of all rows. For a shorter one it is
/// faster to compare each prefix with the rows.
const WORTH_A_MAP: usize = 48;

/// How often each event occurs in a prefix.
type Counts = [u16; MAX_EVENTS];

/// How far a log table is filled.
#[derive(Clone, Copy, Debug, PartialEq, Eq)]
pub struct Summary {
    /// The event count.
    pub n: usize,
    /// The rows.
    pub rows: usize,
    /// The events of all words so far.
    pub events: usize,
}

/// Sets the first 3,584 numbers of `table` to zero and returns the summary of a
/// log without words.
///
/// # Errors
///
/// The first that applies; `table` is then as it was:
/// 5 with the length needed when `table` is too short, 16 when `n` is not 1 to
/// 12.
pub fn fresh(n: usize, table: &mut [u16]) -> Result<Summary, Refusal> {
    let table = front(table)?;
    let summary = Summary {
        n,
        rows: 1,
        events: 0,
    };
    check(summary)?;
    table.fill(0);
    Ok(summary)
}

/// Takes a further word of a log and returns the next summary.
///
/// Each prefix of `word` uses the lowest of the rows with its counts, or appends
/// one; the row's traffic grows by 1, up to 65,535, and the event that follows the
/// prefix is set in the row's mask.
///
/// # Errors
///
/// The first that applies; `table` is then as it was:
/// 5 with the length needed when `table` is too short, 16 when the summary is
/// out of range, 8 when the events would pass 1,024, 7 with the first position of
/// `word` whose event is not below `n`, 9 when the rows would pass 256.
pub fn take(summary: Summary, word: &[u8], table: &mut [u16]) -> Result<Summary, Refusal> {
    let table = front(table)?;
    check(summary)?;
    let Summary { n, rows, events } = summary;
    if word.len() > MAX_LOG_EVENTS - events {
        return Err(Refusal { number: 8, spot: 0 });
    }
    if let Some(spot) = word.iter().position(|&event| usize::from(event) >= n) {
        return Err(Refusal { number: 7, spot });
    }

    let (used, next_rows) = rows_used(word, &table[..rows * ROW]);
    if next_rows > MAX_ROWS {
        return Err(Refusal { number: 9, spot: 0 });
    }

    let following = word.iter().map(Some).chain(iter::once(None));
    for ((counts, row), event) in prefixes(word).zip(used).zip(following) {
        let numbers = &mut table[row * ROW..][..ROW];
        if row >= rows {
            numbers[..MASK].copy_from_slice(&counts);
            numbers[MASK..].fill(0);
        }
        numbers[TRAFFIC] = numbers[TRAFFIC].saturating_add(1);
        if let Some(event) = event {
            numbers[MASK] |= 1 << event;
        }
    }
    Ok(Summary {
        n,
        rows: next_rows,
        events: events + word.len(),
    })
}

/// The row of each prefix of a word, shortest first, and the number of rows that
/// there are then. Those beyond the present ones are to be appended.
///
/// The prefixes of one word have different lengths and so different counts: none
/// of them finds a row that the same word appends. So the row of each is known
/// before anything is written.
fn rows_used(word: &[u8], present: &[u16]) -> (Vec<usize>, usize) {
    let rows = present.chunks_exact(ROW).map(|row| &row[..MASK]);
    let mut next_rows = rows.len();
    let mut found_or_appended = |found: Option<usize>| {
        found.unwrap_or_else(|| {
            next_rows += 1;
            next_rows - 1
        })
    };

    let used = if word.len() < WORTH_A_MAP {
        prefixes(word)
            .map(|counts| found_or_appended(rows.clone().position(|row| row == counts)))
            .collect()
    } else {
        // From the last row to the first, so that the lowest of equal ones stays.
        let lowest: HashMap<&[u16], usize> =
            rows.enumerate().rev().map(|(i, row)| (row, i)).collect();
        prefixes(word)
            .map(|counts| found_or_appended(lowest.get(counts.as_slice()).copied()))
            .collect()
    };
    (used, next_rows)
}

/// The counts of each prefix of a word, shortest first.
fn prefixes(word: &[u8]) -> impl Iterator<Item = Counts> + '_ {
    let mut counts = [0; MAX_EVENTS];
    iter::once(counts).chain(word.iter().map(move |&event| {
        counts[usize::from(event)] += 1;
        counts
    }))
}

/// The part of a table that the rows can fill.
pub(crate) fn front(table: &mut [u16]) -> Result<&mut [u16], Refusal> {
    table.get_mut(..TABLE).ok_or(Refusal {
        number: 5,
        spot: TABLE,
    })
}

fn check(summary: Summary) -> Result<(), Refusal> {
    let Summary { n, rows, events } = summary;
    if (1..=MAX_EVENTS).contains(&n) && (1..=MAX_ROWS).contains(&rows) && events <= MAX_LOG_EVENTS {
        Ok(())
    } else {
        Err(Refusal {
            number: 16,
            spot: 0,
        })
    }
}
