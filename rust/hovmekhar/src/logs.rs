//! The log table.

use crate::ffi::{self, Answer};
use crate::Refusal;

/// The largest event count.
pub const MAX_EVENTS: usize = 12;

/// Numbers of a row of the log table: [`MAX_EVENTS`] counts, the mask and the
/// traffic.
pub const ROW_SIZE: usize = 14;

/// The largest number of rows in the log table.
pub const MAX_ROWS: usize = 256;

/// Numbers of the log table.
pub const TABLE_SIZE: usize = MAX_ROWS * ROW_SIZE;

/// The largest number of events in a log, over all its words.
pub const MAX_LOG_EVENTS: usize = 1_024;

/// The summary of a log: how far its table is filled.
///
/// A log is a list of words, and a word is a list of events, each a byte below
/// the event count `n`. The prefixes of a log are all beginnings of its words;
/// the empty word is always one. The table has a row of [`ROW_SIZE`] numbers for
/// each distinct count vector of a prefix, in the order of first occurrence:
/// twelve counts that say how often each event occurs in the prefix, zero from
/// `n` on, then a mask, then the row's traffic. Bit `e` of the mask is set when a
/// prefix with these counts is followed by event `e` in the log. The traffic says
/// how many words of the log have a prefix with these counts, up to 65,535. Only
/// row 0 can reach that, and not without empty words.
///
/// ```
/// use hovmekhar::{Summary, ROW_SIZE, TABLE_SIZE};
///
/// let mut table = [0; TABLE_SIZE];
/// let summary = Summary::fresh(4, &mut table)?
///     .take(&[0, 1, 2], &mut table)?
///     .take(&[1, 0, 3], &mut table)?;
/// assert_eq!(summary, Summary { n: 4, rows: 6, events: 6 });
///
/// // Row 2 counts one event 0 and one event 1. Both words pass it, so 2 and 3 may
/// // follow, and its traffic is 2.
/// let row = &table[2 * ROW_SIZE..3 * ROW_SIZE];
/// assert_eq!(row, [1, 1, 0, 0, 0, 0, 0, 0, 0, 0, 0, 0, 0b1100, 2]);
/// # Ok::<(), hovmekhar::Refusal>(())
/// ```
///
/// A summary that is dropped would have the next word taken with an old one, so the
/// compiler warns of it; here the warning is an error:
///
/// ```compile_fail
/// #![deny(unused_must_use)]
/// # use hovmekhar::{Refusal, Summary};
/// fn log(summary: Summary, table: &mut [u16]) -> Result<Summary, Refusal> {
///     summary.take(&[0, 1], table)?;
///     summary.take(&[1, 0], table)
/// }
/// ```
///
/// ```
/// #![deny(unused_must_use)]
/// # use hovmekhar::{Refusal, Summary};
/// fn log(summary: Summary, table: &mut [u16]) -> Result<Summary, Refusal> {
///     summary.take(&[0, 1], table)?.take(&[1, 0], table)
/// }
/// ```
#[derive(Clone, Copy, Debug, PartialEq, Eq, Hash)]
#[must_use = "the next word is taken with the new summary"]
pub struct Summary {
    /// The event count, 1 to 12.
    pub n: usize,
    /// The rows of the table, 1 to 256.
    pub rows: usize,
    /// The events of all words so far, at most 1,024.
    pub events: usize,
}

impl Summary {
    /// Starts a log over `n` events: sets the first [`TABLE_SIZE`] numbers of
    /// `table` to zero. The rest of `table` stays as it was. The table then has
    /// one row, that of the empty prefix.
    ///
    /// # Errors
    ///
    /// The first of these that applies; `table` is then as it was:
    /// [`Refusal::NUMBERS_SHORT`], [`Refusal::STATE_RANGE`].
    ///
    /// ```
    /// use hovmekhar::{Refusal, Summary, TABLE_SIZE};
    ///
    /// let mut table = [9; TABLE_SIZE + 1];
    /// let summary = Summary::fresh(12, &mut table)?;
    /// assert_eq!(summary, Summary { n: 12, rows: 1, events: 0 });
    /// assert_eq!(table[TABLE_SIZE - 1..], [0, 9]);
    ///
    /// let refusal = Summary::fresh(13, &mut table).unwrap_err();
    /// assert_eq!(refusal.number, Refusal::STATE_RANGE);
    /// # Ok::<(), Refusal>(())
    /// ```
    pub fn fresh(n: usize, table: &mut [u16]) -> Result<Summary, Refusal> {
        let mut answer = Answer::default();
        let number = ffi::fresh(n, table, &mut answer);
        summary_or_refusal(number, answer)
    }

    /// Takes a further word of the log and returns the next summary.
    ///
    /// For each prefix of the word, shortest first, from the empty one to the
    /// whole word: the lowest of the rows with its counts is used; where there is
    /// none, a row with its counts, mask 0 and traffic 0 is appended. The row's
    /// traffic then grows by 1, where it is not 65,535, and where an event follows
    /// in the word, that event's bit is set in the row's mask. No other number of
    /// `table` changes.
    ///
    /// A table with other contents than these calls left follows the same steps:
    /// all twelve counts of a row are compared, and rows beyond those of the
    /// summary are not looked at.
    ///
    /// # Errors
    ///
    /// The first of these that applies; `table` is then as it was, so the log can
    /// go on with another word: [`Refusal::NUMBERS_SHORT`], [`Refusal::STATE_RANGE`],
    /// [`Refusal::EVENTS`], [`Refusal::VALUE`], [`Refusal::ROWS`].
    ///
    /// ```
    /// use hovmekhar::{Refusal, Summary, TABLE_SIZE};
    ///
    /// let mut table = [0; TABLE_SIZE];
    /// let summary = Summary::fresh(2, &mut table)?.take(&[0, 1, 1], &mut table)?;
    ///
    /// let refusal = summary.take(&[1, 0, 2], &mut table).unwrap_err();
    /// assert_eq!(refusal, Refusal { number: Refusal::VALUE, spot: 2 });
    ///
    /// let summary = summary.take(&[1, 0], &mut table)?;
    /// assert_eq!(summary, Summary { n: 2, rows: 5, events: 5 });
    /// # Ok::<(), Refusal>(())
    /// ```
    pub fn take(self, word: &[u8], table: &mut [u16]) -> Result<Summary, Refusal> {
        let Summary { n, rows, events } = self;
        let mut answer = Answer::default();
        let number = ffi::take(n, rows, events, word, table, &mut answer);
        summary_or_refusal(number, answer)
    }
}

/// Reads what a call of the library returned: 0 and a summary, or a refusal's
/// number and spot.
fn summary_or_refusal(number: u32, answer: Answer) -> Result<Summary, Refusal> {
    Refusal::check(number, answer)?;
    // `usize` has 64 bits here, so the conversions keep the values.
    let [n, rows, events, _] = answer.map(|number| number as usize);
    Ok(Summary { n, rows, events })
}
