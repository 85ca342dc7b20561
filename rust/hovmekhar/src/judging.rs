//! Judging.

use crate::ffi::{self, Answer};
use crate::{open_vec, Refusal, ROW_SIZE, TABLE_SIZE};

/// The largest number of places in a net.
pub const MAX_PLACES: usize = 64;

/// The largest number of terms in a certificate of kind 1.
pub const MAX_TERMS: usize = 64;

/// The largest number of pairs in a certificate of kind 1 of the new edition.
pub const MAX_PAIRS: usize = 64;

/// By how much the first byte of a bundle of the new edition is above the event count.
pub const NEW_EDITION: u8 = 128;

/// The counts of an accepted bundle.
#[derive(Clone, Copy, Debug, PartialEq, Eq, Hash)]
pub struct Tally {
    /// The rows of the log.
    pub rows: usize,
    /// The allowed steps of the log: the bits that are set in the masks of its
    /// rows.
    pub allowed: usize,
    /// The wrong continuations with a certificate of kind 0: the place that it
    /// lists refuses them.
    pub by_place: usize,
    /// The wrong continuations with a certificate of kind 1: its weights show that
    /// no net that permits the log, and obeys its completed words, refuses them.
    pub by_weights: usize,
}

/// A sealed file that was accepted: its bundle, and what judging said of it.
#[derive(Clone, Debug, PartialEq, Eq)]
pub struct Judged {
    /// The bundle, for [`screen`](crate::screen), [`prune`](crate::prune),
    /// [`to_new`](crate::to_new) and [`to_old`](crate::to_old): the file need not be opened
    /// again.
    pub bundle: Vec<u8>,
    /// The counts.
    pub tally: Tally,
    /// The rows of the log, with [`ROW_SIZE`] numbers for each.
    pub rows: Vec<u16>,
}

/// Judges a bundle: its log, its places and its certificates.
///
/// A bundle is accepted when its places permit every word of its log, have their
/// initial tokens again after each word that is completed, and each wrong
/// continuation, that is each event that does not follow the counts of a row in the
/// log, has a certificate that holds. The first [`TABLE_SIZE`] numbers of `table` are
/// then the rows of the log and zeros behind them, whatever they were before. The rest
/// of `table` stays as it was. A bundle of the old edition has no completed word.
///
/// # Errors
///
/// [`Refusal::BUNDLE_LENGTH`], else [`Refusal::NUMBERS_SHORT`]; `table` is then as
/// it was.
///
/// Else the first of these that applies in the order of the bundle; the first
/// [`TABLE_SIZE`] numbers of `table` are then zero and the rest is as it was:
/// [`Refusal::BUNDLE_END`], [`Refusal::VALUE`], [`Refusal::EVENTS`],
/// [`Refusal::ROWS`], [`Refusal::PLACE_MISFIT`], [`Refusal::PLACE_DISOBEYS`],
/// [`Refusal::PLACE_PERMITS`], [`Refusal::WEIGHTS`], [`Refusal::BYTES_FOLLOW`].
///
/// ```
/// use hovmekhar::{Tally, ROW_SIZE, TABLE_SIZE};
///
/// let bundle = [
///     // Two events and the words 1 and 0 0 1.
///     2, 2, 1, 1, 3, 0, 0, 1,
///     // Two places: the initial tokens, then for each event in, then out.
///     2, 1, 0, 1, 0, 0, 0, 1, 0, 1, 0,
///     2, 0, 0, 0, 0, 0, 1, 0, 0, 0,
///     // A certificate for each of the six wrong continuations. The third is of
///     // kind 1: half the counts of row 0 and half those of row 3 are the counts
///     // of row 2, and event 1 follows both.
///     0, 0,
///     0, 0,
///     1, 2, 0, 2, 0, 0, 1, 1, 0, 3, 0, 1, 1, 0,
///     0, 1,
///     0, 0,
///     0, 0,
/// ];
/// let mut table = [9; TABLE_SIZE];
/// let counts = hovmekhar::judge(&bundle, &mut table)?;
/// assert_eq!(
///     counts,
///     Tally { rows: 5, allowed: 4, by_place: 5, by_weights: 1 }
/// );
///
/// // Row 3 counts two events 0, event 1 follows, and one word passes it. Behind row
/// // 4 are zeros.
/// let row = &table[3 * ROW_SIZE..4 * ROW_SIZE];
/// assert_eq!(row, [2, 0, 0, 0, 0, 0, 0, 0, 0, 0, 0, 0, 0b10, 1]);
/// assert!(table[5 * ROW_SIZE..].iter().all(|&number| number == 0));
/// # Ok::<(), hovmekhar::Refusal>(())
/// ```
///
/// A bundle of the new edition, with a completed word:
///
/// ```
/// use hovmekhar::{Refusal, NEW_EDITION};
///
/// let mut bundle = [
///     // Two events, and the word 0 1, completed.
///     NEW_EDITION + 2, 1, 2, 1, 0, 1,
///     // Two places: event 0 takes the token of the first, and event 1 puts it back; event
///     // 1 takes what event 0 puts into the second.
///     2, 1, 0, 0, 0, 1, 0, 1, 0, 0, 0,
///     0, 0, 1, 0, 0, 0, 0, 0, 1, 0,
///     // Certificates for event 1 at first, for event 0 after 0, and for events 0 and 1
///     // after 0 1. There event 0 is as at first: its weight, and the word once.
///     0, 1,
///     0, 0,
///     1, 1, 0, 1, 0, 0, 0, 1, 0, 1, 0, 1, 0,
///     0, 1,
/// ];
/// let (counts, _) = hovmekhar::judge_vec(&bundle)?;
/// assert_eq!((counts.by_place, counts.by_weights), (3, 1));
///
/// // With two tokens for each event 0 one stays in the second place.
/// bundle[19] = 2;
/// let refusal = hovmekhar::judge_vec(&bundle).unwrap_err();
/// assert_eq!(refusal, Refusal { number: Refusal::PLACE_DISOBEYS, spot: 1 });
/// # Ok::<(), Refusal>(())
/// ```
///
/// A certificate of kind 1 whose weights are too small:
///
/// ```
/// use hovmekhar::{Refusal, TABLE_SIZE};
///
/// let mut table = [9; TABLE_SIZE + 1];
/// let refusal = hovmekhar::judge(&[1, 0, 0, 1, 1, 0, 0], &mut table).unwrap_err();
/// assert_eq!(refusal, Refusal { number: Refusal::WEIGHTS, spot: 0 });
/// assert_eq!(table[TABLE_SIZE - 1..], [0, 9]);
/// ```
pub fn judge(bundle: &[u8], table: &mut [u16]) -> Result<Tally, Refusal> {
    let mut answer = Answer::default();
    let number = ffi::judge(bundle, table, &mut answer);
    counts_or_refusal(number, answer)
}

/// Judges a bundle, and returns the counts and the rows of its log, with
/// [`ROW_SIZE`] numbers for each.
///
/// # Errors
///
/// As for [`judge`], without [`Refusal::NUMBERS_SHORT`].
///
/// ```
/// // One event and no word. The place has no token and the event takes one.
/// let (counts, rows) = hovmekhar::judge_vec(&[1, 0, 1, 0, 0, 0, 0, 1, 0, 0, 0])?;
/// assert_eq!(counts.by_place, 1);
/// assert_eq!(rows, [0; hovmekhar::ROW_SIZE]);
/// # Ok::<(), hovmekhar::Refusal>(())
/// ```
pub fn judge_vec(bundle: &[u8]) -> Result<(Tally, Vec<u16>), Refusal> {
    let mut table = vec![0; TABLE_SIZE];
    let counts = judge(bundle, &mut table)?;
    table.truncate(counts.rows * ROW_SIZE);
    Ok((counts, table))
}

/// Opens a sealed file and judges its bundle, and returns both. Only an accepted
/// bundle is returned; who wants a refused one, too, makes the two calls,
/// [`open_vec`] and [`judge_vec`].
///
/// # Errors
///
/// As for [`open_vec`], else as for [`judge_vec`].
///
/// ```
/// use hovmekhar::{Refusal, Screened};
///
/// // One event and no word. The place has no token and the event takes one.
/// let bundle = [1, 0, 1, 0, 0, 0, 0, 1, 0, 0, 0];
/// let mut file = hovmekhar::seal_vec(&bundle)?;
/// let judged = hovmekhar::judge_file_vec(&file)?;
/// assert_eq!(judged.tally.by_place, 1);
/// assert_eq!(judged.bundle, bundle);
///
/// // The same bundle is screened.
/// let screened = hovmekhar::screen(&judged.bundle, &[0])?;
/// assert!(matches!(screened, Screened::Stopped { position: 0, .. }));
///
/// file[4] ^= 1;
/// let refusal = hovmekhar::judge_file_vec(&file).unwrap_err();
/// assert_eq!(refusal, Refusal { number: Refusal::BLOCK_SUMS, spot: 0 });
/// # Ok::<(), Refusal>(())
/// ```
pub fn judge_file_vec(file: &[u8]) -> Result<Judged, Refusal> {
    let bundle = open_vec(file)?;
    let (tally, rows) = judge_vec(&bundle)?;
    Ok(Judged {
        bundle,
        tally,
        rows,
    })
}

/// Reads what a call of the library returned: 0 and four counts, or a refusal's
/// number and spot.
fn counts_or_refusal(number: u32, answer: Answer) -> Result<Tally, Refusal> {
    Refusal::check(number, answer)?;
    // `usize` has 64 bits here, so the conversions keep the values.
    let [rows, allowed, by_place, by_weights] = answer.map(|number| number as usize);
    Ok(Tally {
        rows,
        allowed,
        by_place,
        by_weights,
    })
}
