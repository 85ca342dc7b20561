//! A shortest word that leads to an event.

use crate::ffi::{self, Answer, Word};
use crate::Refusal;
use std::fmt;
use std::ops::Deref;

/// The largest number of events in a word that [`reach`] looks for.
pub const MAX_REACH_EVENTS: usize = 5;

/// A word of at most [`MAX_REACH_EVENTS`] events, as [`reach`] gives it. It is used as a
/// slice of its events.
#[derive(Clone, Copy, PartialEq, Eq, Hash)]
#[must_use = "the word is all that was asked for"]
pub struct Reached {
    length: usize,
    // Zero behind the word, so that equal words are equal.
    word: Word,
}

impl Reached {
    /// The events.
    #[must_use]
    pub fn as_slice(&self) -> &[u8] {
        &self.word[..self.length]
    }
}

impl Deref for Reached {
    type Target = [u8];

    fn deref(&self) -> &[u8] {
        self.as_slice()
    }
}

impl fmt::Debug for Reached {
    fn fmt(&self, f: &mut fmt::Formatter<'_>) -> fmt::Result {
        f.debug_tuple("Reached").field(&self.as_slice()).finish()
    }
}

/// Looks for a shortest word of at most [`MAX_REACH_EVENTS`] events that the net of a bundle
/// permits, and after which it permits the event `wanted`, which is not counted. Of several
/// that are equally short it gives the first by event numbers. Nothing when there is no such
/// word.
///
/// [`screen`](crate::screen) permits the word with the wanted event behind it. The bundle is
/// read as [`screen`](crate::screen) reads one, whether or not [`judge`](crate::judge)
/// accepts it.
///
/// # Errors
///
/// What [`screen`](crate::screen) refuses in the bundle: [`Refusal::BUNDLE_LENGTH`],
/// [`Refusal::BUNDLE_END`], [`Refusal::VALUE`], [`Refusal::EVENTS`]; else
/// [`Refusal::WORD_EVENT`] with spot 0 where `wanted` is not below the event count.
///
/// ```
/// use hovmekhar::Refusal;
///
/// // Three events, no word and two places: the initial tokens, then for each event in,
/// // then out. Event 1 takes two tokens that event 0 puts, and event 2 takes one that
/// // nothing puts.
/// let bundle = [
///     3, 0, 2,
///     0, 0, 1, 0, 0, 0, 0, 0, 0, 0, 2, 0, 0, 0,
///     0, 0, 0, 0, 0, 0, 0, 0, 0, 0, 0, 0, 1, 0,
/// ];
/// let word = hovmekhar::reach(&bundle, 1)?.expect("two events 0 lead there");
/// assert_eq!(word.as_slice(), [0, 0]);
/// let word = hovmekhar::reach(&bundle, 0)?.expect("it is permitted at once");
/// assert!(word.is_empty());
/// assert_eq!(hovmekhar::reach(&bundle, 2)?, None);
///
/// let refusal = hovmekhar::reach(&bundle, 3).unwrap_err();
/// assert_eq!(refusal, Refusal { number: Refusal::WORD_EVENT, spot: 0 });
/// # Ok::<(), Refusal>(())
/// ```
#[inline]
pub fn reach(bundle: &[u8], wanted: usize) -> Result<Option<Reached>, Refusal> {
    let (mut word, mut answer) = (Word::default(), Answer::default());
    let number = ffi::reach(bundle, wanted, &mut word, &mut answer);
    if number == ffi::NONE {
        return Ok(None);
    }
    Refusal::check(number, answer)?;
    // `usize` has 64 bits here, so the conversion keeps the value.
    let length = answer[0] as usize;
    Ok(Some(Reached { length, word }))
}
