//! The carried engine: a net played event by event, and another one in its place.

use crate::ffi::{self, Answer};
use crate::{Refusal, Screened};

/// The most tokens that a place can have after at most 65,535 events.
pub const MAX_TOKENS: u64 = 4_294_901_760;

/// What a step did.
///
/// As with [`Screened`], the compiler warns of an answer that is not looked at.
#[derive(Clone, Copy, Debug, PartialEq, Eq, Hash)]
#[must_use = "an event that is stopped must not pass"]
pub enum Step {
    /// Every place permits the event, its tokens are moved, and the event is kept: so many
    /// events were played with it.
    Moved(usize),
    /// The event is refused, no token is moved, and it is neither kept nor counted.
    Stopped {
        /// How many events were played before it.
        position: usize,
        /// The lowest place that refuses it.
        place: usize,
        /// How many tokens this place lacks, as from [`screen`](crate::screen).
        shortfall: usize,
    },
}

/// Starts a run on the net of a bundle: writes the initial tokens of its places to the
/// front of `tokens`, a number for each place. The rest stays as it was. Returns the
/// number of the events so far, 0, for the first [`step`].
///
/// The bundle is read as [`screen`](crate::screen) reads one, whether or not
/// [`judge`](crate::judge) accepts it. [`MAX_PLACES`](crate::MAX_PLACES) numbers are
/// enough for every bundle. A [`Sale`](crate::Sale) does this with tokens of its own.
///
/// # Errors
///
/// [`Refusal::BUNDLE_LENGTH`], else the first of these that applies in the order of the
/// bundle: [`Refusal::BUNDLE_END`], [`Refusal::VALUE`], [`Refusal::EVENTS`]; else
/// [`Refusal::NUMBERS_SHORT`]. `tokens` is then as it was.
///
/// ```
/// use hovmekhar::{Refusal, Step};
///
/// // Two events, no word and two places: the initial tokens, then for each event in,
/// // then out. Event 0 occurs at most twice, and event 1 only behind an event 0.
/// let bundle = [
///     2, 0, 2, 2, 0, 0, 0, 0, 0, 1, 0, 0, 0,
///     0, 0, 1, 0, 0, 0, 0, 0, 1, 0,
/// ];
/// let mut tokens = [9; 3];
/// let number = hovmekhar::start(&bundle, &mut tokens)?;
/// assert_eq!((number, tokens), (0, [2, 0, 9]));
/// let mut kept = [9; 2];
/// let step = hovmekhar::step(&bundle, &mut tokens, &mut kept, number, 0)?;
/// assert_eq!((step, tokens, kept), (Step::Moved(1), [1, 1, 9], [0, 9]));
///
/// let refusal = hovmekhar::start(&bundle, &mut tokens[..1]).unwrap_err();
/// assert_eq!(refusal, Refusal { number: Refusal::NUMBERS_SHORT, spot: 2 });
/// # Ok::<(), Refusal>(())
/// ```
pub fn start(bundle: &[u8], tokens: &mut [u64]) -> Result<usize, Refusal> {
    let mut answer = Answer::default();
    let number = ffi::start(bundle, tokens, &mut answer);
    Refusal::check(number, answer)?;
    // `usize` has 64 bits here, so the conversion keeps the value.
    Ok(answer[0] as usize)
}

/// Plays a further event of a run, which had `number` events so far: tests it on every
/// place, then moves the tokens of all and writes the event to `kept[number]`, behind those
/// so far. Returns the number to hand to the next step.
///
/// The bundle is the one of [`start`], or the new one of [`replace`], and `tokens`, `kept`
/// and `number` are as the call before left them; then the answer is that of
/// [`screen`](crate::screen) for all events so far with this one behind them. They may be
/// anything else, too, and are then taken as they are. Numbers behind the last place and
/// the other bytes of `kept` are neither looked at nor changed;
/// [`MAX_WORD_EVENTS`](crate::MAX_WORD_EVENTS) bytes are enough for every run.
///
/// # Errors
///
/// [`Refusal::WORD_LENGTH`] at 65,535 events or more, else what [`start`] refuses, else
/// [`Refusal::STATE_RANGE`] where a place has more than [`MAX_TOKENS`], which no run
/// reaches, else [`Refusal::WORD_EVENT`], else [`Refusal::OUTPUT_SHORT`] where `kept` has
/// no room for the event. `tokens` and `kept` are then as they were.
///
/// ```
/// use hovmekhar::{Refusal, Step, MAX_TOKENS};
///
/// // Two events, the first of which takes a token out of the one place, and no word.
/// let bundle = [2, 0, 1, 1, 0, 0, 0, 0, 0, 1, 0, 0, 0];
/// let (mut tokens, mut kept) = ([1], [9; 9]);
/// let step = hovmekhar::step(&bundle, &mut tokens, &mut kept, 7, 0)?;
/// assert_eq!((step, tokens[0], kept[7]), (Step::Moved(8), 0, 0));
/// let stopped = Step::Stopped { position: 8, place: 0, shortfall: 1 };
/// assert_eq!(hovmekhar::step(&bundle, &mut tokens, &mut kept, 8, 0)?, stopped);
/// assert_eq!((tokens[0], kept[8]), (0, 9));
///
/// let refusal = hovmekhar::step(&bundle, &mut tokens, &mut kept, 8, 2).unwrap_err();
/// assert_eq!(refusal, Refusal { number: Refusal::WORD_EVENT, spot: 8 });
/// let refusal = hovmekhar::step(&bundle, &mut tokens, &mut kept, 9, 1).unwrap_err();
/// assert_eq!(refusal, Refusal { number: Refusal::OUTPUT_SHORT, spot: 10 });
/// tokens = [MAX_TOKENS + 1];
/// let refusal = hovmekhar::step(&bundle, &mut tokens, &mut kept, 8, 0).unwrap_err();
/// assert_eq!(refusal, Refusal { number: Refusal::STATE_RANGE, spot: 0 });
/// # Ok::<(), Refusal>(())
/// ```
#[inline]
pub fn step(
    bundle: &[u8],
    tokens: &mut [u64],
    kept: &mut [u8],
    number: usize,
    event: usize,
) -> Result<Step, Refusal> {
    let mut answer = Answer::default();
    let returned = ffi::step(bundle, tokens, kept, number, event, &mut answer);
    Ok(match Screened::check(returned, answer)? {
        Screened::Permitted => Step::Moved(answer[0] as usize),
        Screened::Stopped {
            position,
            place,
            shortfall,
        } => Step::Stopped {
            position,
            place,
            shortfall,
        },
    })
}

/// Puts the net of the bundle `new` in place of that of `old`, between two events of a run:
/// writes the tokens of the new net's places behind the events so far, the first `number`
/// of `kept`, to the front of `tokens`. The rest stays as it was.
///
/// Where only [`start`], [`step`] and this call wrote to `tokens` and `kept` since the start
/// and each number was handed on, the run goes on just as if all its events had been played
/// on the new net from the start. The next step gets `new` and the same number.
///
/// Both bundles are read as [`screen`](crate::screen) reads one, and may be the same. Of the
/// old one only the event count is used, and what `tokens` held does not matter.
/// [`MAX_PLACES`](crate::MAX_PLACES) numbers are enough for every bundle. A
/// [`Sale`](crate::Sale) does this with tokens and events of its own.
///
/// # Errors
///
/// [`Refusal::WORD_LENGTH`] above 65,535 events, else [`Refusal::OUTPUT_SHORT`] where `kept`
/// has fewer than `number` bytes, else what [`screen`](crate::screen) refuses in the old
/// bundle, else what it refuses in the new one: [`Refusal::BUNDLE_LENGTH`],
/// [`Refusal::BUNDLE_END`], [`Refusal::VALUE`], [`Refusal::EVENTS`], each with its spot in
/// that bundle; else [`Refusal::REPLACED_EVENTS`], else [`Refusal::NUMBERS_SHORT`] for the
/// new net's places, else [`Refusal::WORD_EVENT`] for the first of the events so far that is
/// not there, else [`Refusal::RUN_STOPPED`]. `tokens` is then as it was, and the run can go
/// on with the old bundle.
///
/// ```
/// use hovmekhar::{Refusal, Step};
///
/// // Two events, no word and one place: event 0 occurs at most once, twice or three times.
/// let [once, twice, thrice] = [1, 2, 3].map(|m| [2, 0, 1, m, 0, 0, 0, 0, 0, 1, 0, 0, 0]);
/// let (mut tokens, mut kept) = ([0], [0; 8]);
/// let mut number = hovmekhar::start(&twice, &mut tokens)?;
/// for event in [0, 0] {
///     match hovmekhar::step(&twice, &mut tokens, &mut kept, number, event)? {
///         Step::Moved(next) => number = next,
///         Step::Stopped { .. } => unreachable!("both are permitted"),
///     }
/// }
/// hovmekhar::replace(&twice, &thrice, &mut tokens, &kept, number)?;
/// assert_eq!(tokens, [1]);
/// let step = hovmekhar::step(&thrice, &mut tokens, &mut kept, number, 0)?;
/// assert_eq!((step, tokens), (Step::Moved(3), [0]));
///
/// // A net that stops on the events so far, and one over other events.
/// let refusal = hovmekhar::replace(&thrice, &once, &mut tokens, &kept, 3).unwrap_err();
/// assert_eq!(refusal, Refusal { number: Refusal::RUN_STOPPED, spot: 1 });
/// let refusal = hovmekhar::replace(&thrice, &[3, 0, 0], &mut tokens, &kept, 3).unwrap_err();
/// assert_eq!(refusal, Refusal { number: Refusal::REPLACED_EVENTS, spot: 0 });
/// assert_eq!(tokens, [0]);
/// # Ok::<(), Refusal>(())
/// ```
#[inline]
pub fn replace(
    old: &[u8],
    new: &[u8],
    tokens: &mut [u64],
    kept: &[u8],
    number: usize,
) -> Result<(), Refusal> {
    let mut answer = Answer::default();
    let returned = ffi::replace(old, new, tokens, kept, number, &mut answer);
    Refusal::check(returned, answer)
}
