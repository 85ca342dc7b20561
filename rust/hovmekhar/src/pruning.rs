//! Pruning.

use crate::blocks::length_or_refusal;
use crate::ffi::{self, Answer};
use crate::{Refusal, MAX_BUNDLE_SIZE, TABLE_SIZE};

/// Prunes a bundle: judges it as [`judge`](crate::judge) does and, when it is accepted,
/// writes it to the front of `output` without its idle places, those that no certificate
/// of kind 0 names. Returns the length; the rest of `output` stays as it was.
///
/// The other places keep their order, and the certificates of kind 0 name them by their
/// new numbers. All else is the same byte for byte, the edition, the marks of the words
/// and the pairs of the certificates among it. So the result is accepted with the
/// same counts and the same table, and it is never longer. A prefix of the log with one
/// event added is permitted by the new net exactly when the old one permits it. A word
/// that leaves the log earlier may be permitted although it was not. Pruning once more
/// changes nothing.
///
/// An output of the bundle's length is long enough.
///
/// # Errors
///
/// As for [`judge`](crate::judge), else [`Refusal::OUTPUT_SHORT`]; `output` is then as it
/// was. In every case `table` is as [`judge`](crate::judge) leaves it: with
/// [`Refusal::OUTPUT_SHORT`] it has the rows of the log.
///
/// ```
/// use hovmekhar::{Refusal, TABLE_SIZE};
///
/// let bundle = [
///     // One event and the word 0.
///     1, 1, 1, 0,
///     // Three places: the initial tokens, then for the event in and out. The first
///     // permits the event three times, the second once, the third always.
///     3, 3, 0, 0, 0, 1, 0,
///     1, 0, 0, 0, 1, 0,
///     0, 0, 0, 0, 0, 0,
///     // The second place refuses the event after the word.
///     0, 1,
/// ];
/// let mut output = [9; 16];
/// let mut table = [0; TABLE_SIZE];
/// let length = hovmekhar::prune(&bundle, &mut output, &mut table)?;
/// assert_eq!(length, 13);
/// assert_eq!(output, [1, 1, 1, 0, 1, 1, 0, 0, 0, 1, 0, 0, 0, 9, 9, 9]);
///
/// let refusal = hovmekhar::prune(&bundle, &mut output[..12], &mut table).unwrap_err();
/// assert_eq!(refusal, Refusal { number: Refusal::OUTPUT_SHORT, spot: 13 });
/// let refusal = hovmekhar::prune(&bundle[..24], &mut output, &mut table).unwrap_err();
/// assert_eq!(refusal, Refusal { number: Refusal::BUNDLE_END, spot: 24 });
/// # Ok::<(), Refusal>(())
/// ```
pub fn prune(bundle: &[u8], output: &mut [u8], table: &mut [u16]) -> Result<usize, Refusal> {
    let mut answer = Answer::default();
    let number = ffi::prune(bundle, output, table, &mut answer);
    length_or_refusal(number, answer)
}

/// Prunes a bundle and returns the result.
///
/// # Errors
///
/// As for [`judge`](crate::judge), without [`Refusal::NUMBERS_SHORT`].
///
/// ```
/// // One event and no word. The second of two places refuses the event.
/// let bundle = [1, 0, 2, 5, 0, 0, 0, 0, 0, 0, 0, 0, 0, 1, 0, 0, 1];
/// let pruned = hovmekhar::prune_vec(&bundle)?;
/// assert_eq!(pruned, [1, 0, 1, 0, 0, 0, 0, 1, 0, 0, 0]);
/// assert_eq!(hovmekhar::prune_vec(&pruned)?, pruned);
/// # Ok::<(), hovmekhar::Refusal>(())
/// ```
pub fn prune_vec(bundle: &[u8]) -> Result<Vec<u8>, Refusal> {
    // The result is never longer, and a longer bundle is refused.
    let mut pruned = vec![0; bundle.len().min(MAX_BUNDLE_SIZE)];
    let mut table = vec![0; TABLE_SIZE];
    let length = prune(bundle, &mut pruned, &mut table)?;
    pruned.truncate(length);
    Ok(pruned)
}
