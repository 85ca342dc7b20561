//! Conversion between the editions.

use crate::blocks::length_or_refusal;
use crate::ffi::{self, Answer};
use crate::{Refusal, MAX_BUNDLE_SIZE, TABLE_SIZE};

/// Converts a bundle to the new edition: judges it as [`judge`](crate::judge) does and,
/// when it is accepted, writes it in the new edition to the front of `output`. Returns the
/// length; the rest of `output` stays as it was.
///
/// A bundle of the new edition is copied. One of the old edition gets
/// [`NEW_EDITION`](crate::NEW_EDITION) added to its first byte, a mark 0 behind the length
/// byte of each word, so that all words are partial, and a pair count 0 behind the terms of
/// each certificate of kind 1. All else is the same byte for byte, so [`to_old`] gives this
/// bundle back. Either result is accepted with the same counts and the same table.
///
/// An output of [`MAX_BUNDLE_SIZE`] bytes is long enough for every bundle.
///
/// # Errors
///
/// As for [`judge`](crate::judge), else [`Refusal::BUNDLE_LENGTH`] where the result is
/// longer than [`MAX_BUNDLE_SIZE`], else [`Refusal::OUTPUT_SHORT`]; `output` is then as it
/// was. In every case `table` is as [`judge`](crate::judge) leaves it: unless the refusal is
/// the judge's, it has the rows of the log. [`Refusal::BUNDLE_LENGTH`] is the result's
/// exactly where the bundle itself has 1 to [`MAX_BUNDLE_SIZE`] bytes.
///
/// ```
/// use hovmekhar::{Refusal, NEW_EDITION, TABLE_SIZE};
///
/// let bundle = [
///     // Two events; the words 1 and 0 0 1.
///     2, 2, 1, 1, 3, 0, 0, 1,
///     // Two places: the initial tokens, then for each event in, then out.
///     2, 1, 0, 1, 0, 0, 0, 1, 0, 1, 0,
///     2, 0, 0, 0, 0, 0, 1, 0, 0, 0,
///     // Six certificates, the third of kind 1.
///     0, 0, 0, 0, 1, 2, 0, 2, 0, 0, 1, 1, 0, 3, 0, 1, 1, 0, 0, 1, 0, 0, 0, 0,
/// ];
/// let mut output = [9; 57];
/// let mut table = [0; TABLE_SIZE];
/// let length = hovmekhar::to_new(&bundle, &mut output, &mut table)?;
/// assert_eq!(length, 56);
/// // A mark for each word, and a pair count.
/// assert_eq!(output[..10], [NEW_EDITION + 2, 2, 1, 0, 1, 3, 0, 0, 0, 1]);
/// assert_eq!(output[10..31], bundle[8..29]);
/// assert_eq!(output[31..49], bundle[29..47]);
/// assert_eq!(output[49..], [0, 0, 1, 0, 0, 0, 0, 9]);
///
/// let refusal = hovmekhar::to_new(&bundle, &mut output[..55], &mut table).unwrap_err();
/// assert_eq!(refusal, Refusal { number: Refusal::OUTPUT_SHORT, spot: 56 });
/// # Ok::<(), Refusal>(())
/// ```
pub fn to_new(bundle: &[u8], output: &mut [u8], table: &mut [u16]) -> Result<usize, Refusal> {
    let mut answer = Answer::default();
    let number = ffi::to_new(bundle, output, table, &mut answer);
    length_or_refusal(number, answer)
}

/// Converts a bundle to the old edition: judges it as [`judge`](crate::judge) does and,
/// when it is accepted and has no completed word, writes it in the old edition to the front
/// of `output`. Returns the length; the rest of `output` stays as it was.
///
/// A bundle of the old edition is copied. One of the new edition gets
/// [`NEW_EDITION`](crate::NEW_EDITION) subtracted from its first byte, and loses the marks of
/// its words and the pair counts of its certificates, which are 0 where no word is
/// completed. All else is the same byte for byte, so [`to_new`] gives this bundle back.
/// Either result is accepted with the same counts and the same table.
///
/// An output of the bundle's length is long enough.
///
/// # Errors
///
/// As for [`judge`](crate::judge), else [`Refusal::WORD_COMPLETED`], else
/// [`Refusal::OUTPUT_SHORT`]; `output` is then as it was. In every case `table` is as
/// [`judge`](crate::judge) leaves it: unless the refusal is the judge's, it has the rows of
/// the log.
///
/// ```
/// use hovmekhar::{Refusal, NEW_EDITION, TABLE_SIZE};
///
/// let bundle = [
///     // One event, and the word 0, partial.
///     NEW_EDITION + 1, 1, 1, 0, 0,
///     // A place that has a token, which the event takes; it refuses the event after 0.
///     1, 1, 0, 0, 0, 1, 0, 0, 0,
/// ];
/// let mut output = [9; 14];
/// let mut table = [0; TABLE_SIZE];
/// let length = hovmekhar::to_old(&bundle, &mut output, &mut table)?;
/// assert_eq!(length, 13);
/// assert_eq!(output, [1, 1, 1, 0, 1, 1, 0, 0, 0, 1, 0, 0, 0, 9]);
///
/// // Completed, and the event puts its token back: it can occur again and again.
/// let completed = [
///     NEW_EDITION + 1, 1, 1, 1, 0,
///     1, 1, 0, 1, 0, 1, 0,
///     1, 1, 0, 1, 0, 0, 0, 1, 0, 1, 0, 1, 0,
/// ];
/// let refusal = hovmekhar::to_old(&completed, &mut output, &mut table).unwrap_err();
/// assert_eq!(refusal, Refusal { number: Refusal::WORD_COMPLETED, spot: 0 });
/// # Ok::<(), Refusal>(())
/// ```
pub fn to_old(bundle: &[u8], output: &mut [u8], table: &mut [u16]) -> Result<usize, Refusal> {
    let mut answer = Answer::default();
    let number = ffi::to_old(bundle, output, table, &mut answer);
    length_or_refusal(number, answer)
}

/// Converts a bundle to the new edition and returns the result.
///
/// # Errors
///
/// As for [`judge`](crate::judge), without [`Refusal::NUMBERS_SHORT`], else
/// [`Refusal::BUNDLE_LENGTH`] where the result is longer than [`MAX_BUNDLE_SIZE`].
///
/// ```
/// // One event and the word 0. The place has one token, which the event takes.
/// let bundle = [1, 1, 1, 0, 1, 1, 0, 0, 0, 1, 0, 0, 0];
/// let new = hovmekhar::to_new_vec(&bundle)?;
/// assert_eq!(new, [129, 1, 1, 0, 0, 1, 1, 0, 0, 0, 1, 0, 0, 0]);
/// assert_eq!(hovmekhar::to_old_vec(&new)?, bundle);
/// # Ok::<(), hovmekhar::Refusal>(())
/// ```
pub fn to_new_vec(bundle: &[u8]) -> Result<Vec<u8>, Refusal> {
    // Each byte more follows a word's length or a certificate's kind, so this is enough.
    let most = (2 * bundle.len()).min(MAX_BUNDLE_SIZE);
    converted(to_new, bundle, most)
}

/// Converts a bundle to the old edition and returns the result.
///
/// # Errors
///
/// As for [`judge`](crate::judge), without [`Refusal::NUMBERS_SHORT`], else
/// [`Refusal::WORD_COMPLETED`].
///
/// ```
/// // One event, and an empty word that is partial. The place has no token.
/// let bundle = [129, 1, 0, 0, 1, 0, 0, 0, 0, 1, 0, 0, 0];
/// let old = hovmekhar::to_old_vec(&bundle)?;
/// assert_eq!(old, [1, 1, 0, 1, 0, 0, 0, 0, 1, 0, 0, 0]);
/// assert_eq!(hovmekhar::to_new_vec(&old)?, bundle);
/// # Ok::<(), hovmekhar::Refusal>(())
/// ```
pub fn to_old_vec(bundle: &[u8]) -> Result<Vec<u8>, Refusal> {
    // The result is never longer, and a longer bundle is refused.
    converted(to_old, bundle, bundle.len().min(MAX_BUNDLE_SIZE))
}

/// A call that converts.
type Call = fn(&[u8], &mut [u8], &mut [u16]) -> Result<usize, Refusal>;

/// Converts into an output of its own, which has room for so many bytes.
fn converted(call: Call, bundle: &[u8], most: usize) -> Result<Vec<u8>, Refusal> {
    let mut output = vec![0; most];
    let mut table = vec![0; TABLE_SIZE];
    let length = call(bundle, &mut output, &mut table)?;
    output.truncate(length);
    Ok(output)
}
