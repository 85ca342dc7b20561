//! Screening.

use crate::ffi::{self, Answer};
use crate::Refusal;

/// The largest number of events in a word that is screened, or played event by event.
pub const MAX_WORD_EVENTS: usize = 65_535;

/// What a net says to a word, or to an event behind others.
///
/// The compiler warns of an answer that is not looked at, since a stopped word
/// would pass; here the warning is an error:
///
/// ```compile_fail
/// #![deny(unused_must_use)]
/// fn gate(bundle: &[u8], word: &[u8]) -> Result<(), hovmekhar::Refusal> {
///     hovmekhar::screen(bundle, word)?;
///     Ok(())
/// }
/// ```
///
/// ```
/// #![deny(unused_must_use)]
/// fn gate(bundle: &[u8], word: &[u8]) -> Result<bool, hovmekhar::Refusal> {
///     let screened = hovmekhar::screen(bundle, word)?;
///     Ok(screened == hovmekhar::Screened::Permitted)
/// }
/// ```
#[derive(Clone, Copy, Debug, PartialEq, Eq, Hash)]
#[must_use = "a word that is stopped must not pass"]
pub enum Screened {
    /// Every place permits every step.
    Permitted,
    /// Some step is refused.
    Stopped {
        /// The position of the first refused step: so many events are permitted
        /// before it.
        position: usize,
        /// The lowest place that refuses it.
        place: usize,
        /// How many tokens this place lacks: what the event takes out, less the
        /// tokens that are there before it. At least 1, at most 65,535.
        shortfall: usize,
    },
}

/// Screens a word: replays it on the places of a bundle.
///
/// A place permits an event after the events before it when it then has as many
/// tokens as the event takes out; what the event puts in does not count yet. The
/// bundle is read up to its last place, whether or not [`judge`](crate::judge)
/// accepts it; its rows are not counted, and what follows the last place is not
/// looked at.
///
/// # Errors
///
/// [`Refusal::WORD_LENGTH`], else [`Refusal::BUNDLE_LENGTH`], else the first of
/// these that applies in the order of the bundle: [`Refusal::BUNDLE_END`],
/// [`Refusal::VALUE`], [`Refusal::EVENTS`]; else [`Refusal::WORD_EVENT`].
///
/// ```
/// use hovmekhar::{Refusal, Screened};
///
/// let bundle = [
///     // Two events and the words 1 and 0 0 1.
///     2, 2, 1, 1, 3, 0, 0, 1,
///     // Two places: the initial tokens, then for each event in, then out. After
///     // event 1 nothing follows, and event 0 occurs at most twice.
///     2, 1, 0, 1, 0, 0, 0, 1, 0, 1, 0,
///     2, 0, 0, 0, 0, 0, 1, 0, 0, 0,
///     // The certificates would follow; they are not read.
/// ];
/// assert_eq!(hovmekhar::screen(&bundle, &[0, 1])?, Screened::Permitted);
/// assert_eq!(
///     hovmekhar::screen(&bundle, &[1, 0])?,
///     Screened::Stopped { position: 1, place: 0, shortfall: 1 }
/// );
/// assert_eq!(
///     hovmekhar::screen(&bundle, &[0, 0, 0])?,
///     Screened::Stopped { position: 2, place: 1, shortfall: 1 }
/// );
///
/// let refusal = hovmekhar::screen(&bundle, &[1, 0, 2]).unwrap_err();
/// assert_eq!(refusal, Refusal { number: Refusal::WORD_EVENT, spot: 2 });
/// # Ok::<(), Refusal>(())
/// ```
#[inline]
pub fn screen(bundle: &[u8], word: &[u8]) -> Result<Screened, Refusal> {
    let mut answer = Answer::default();
    let number = ffi::screen(bundle, word, &mut answer);
    Screened::check(number, answer)
}

/// Screens a word with the places of two bundles of the same event count: replays it
/// on the places of the first, and behind them those of the second.
///
/// A word is permitted exactly when both nets permit it. The places of the second
/// bundle are numbered from the first one's place count on, so the place that is named
/// is at most 127; where places of both refuse the step, it is one of the first. Each
/// bundle is read as [`screen`] reads one. Neither need be one that
/// [`judge`](crate::judge) accepts, and both may be the same.
///
/// # Errors
///
/// [`Refusal::WORD_LENGTH`], else what [`screen`] refuses in the first bundle, else
/// what it refuses in the second: [`Refusal::BUNDLE_LENGTH`], [`Refusal::BUNDLE_END`],
/// [`Refusal::VALUE`], [`Refusal::EVENTS`], each with its spot in that bundle; else
/// [`Refusal::EVENT_COUNTS`], else [`Refusal::WORD_EVENT`].
///
/// ```
/// use hovmekhar::{Refusal, Screened};
///
/// // Two events, no word and one place. Event 0 occurs at most twice.
/// let first = [2, 0, 1, 2, 0, 0, 0, 0, 0, 1, 0, 0, 0];
/// // The same, but event 1 occurs at most as often as event 0 before it.
/// let second = [2, 0, 1, 0, 0, 1, 0, 0, 0, 0, 0, 1, 0];
/// assert_eq!(
///     hovmekhar::screen_joined(&first, &second, &[0, 1, 0])?,
///     Screened::Permitted
/// );
/// assert_eq!(
///     hovmekhar::screen_joined(&first, &second, &[0, 1, 0, 0])?,
///     Screened::Stopped { position: 3, place: 0, shortfall: 1 }
/// );
/// assert_eq!(
///     hovmekhar::screen_joined(&first, &second, &[0, 1, 1])?,
///     Screened::Stopped { position: 2, place: 1, shortfall: 1 }
/// );
///
/// // Three events and no place.
/// let other = [3, 0, 0];
/// let refusal = hovmekhar::screen_joined(&first, &other, &[0]).unwrap_err();
/// assert_eq!(refusal, Refusal { number: Refusal::EVENT_COUNTS, spot: 0 });
/// # Ok::<(), Refusal>(())
/// ```
#[inline]
pub fn screen_joined(first: &[u8], second: &[u8], word: &[u8]) -> Result<Screened, Refusal> {
    let mut answer = Answer::default();
    let number = ffi::screen_joined(first, second, word, &mut answer);
    Screened::check(number, answer)
}

impl Screened {
    /// Reads what a call of the library returned: 256 for a word that is stopped, else
    /// as for other calls.
    #[inline]
    pub(crate) fn check(number: u32, answer: Answer) -> Result<Self, Refusal> {
        if number == ffi::STOPPED {
            // `usize` has 64 bits here, so the conversions keep the values.
            let [position, place, shortfall, _] = answer.map(|number| number as usize);
            return Ok(Self::Stopped {
                position,
                place,
                shortfall,
            });
        }
        Refusal::check(number, answer)?;
        Ok(Self::Permitted)
    }
}
