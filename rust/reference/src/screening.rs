//! Screening a word.
//!
//! A bundle is read up to its last place; then each place replays the word. The nets
//! of two bundles are joined by replaying it on the places of both, in turn.

use crate::blocks::MAX_BUNDLE_SIZE;
use crate::places::Place;
use crate::reader::Reader;
use crate::Refusal;

pub const MAX_WORD_EVENTS: usize = 65_535;

/// What the places of a bundle say to a word.
#[derive(Clone, Copy, Debug, PartialEq, Eq)]
pub enum Screened {
    /// They permit every step.
    Permitted,
    /// Some step is refused.
    Stopped {
        /// The position of the first refused step.
        position: usize,
        /// The lowest place that refuses it.
        place: usize,
        /// How many tokens this place lacks for it.
        shortfall: usize,
    },
}

/// Screens a word with the places of a bundle, whatever follows them.
///
/// # Errors
///
/// 14 when the word is too long, else 4 when the bundle's length is wrong, else
/// the first fault in the order of the bundle: 6 and 7 are refused with the offset
/// of a field, 8 with the offset of a word's length. Else 15 with the first
/// position of `word` whose event is not below the event count.
pub fn screen(bundle: &[u8], word: &[u8]) -> Result<Screened, Refusal> {
    check_length(word)?;
    let net = Net::read(bundle)?;
    check_events(net.n, word)?;
    Ok(replay(&net.places, word))
}

/// Screens a word with the places of two bundles, those of the first in front. Those of
/// the second are numbered on from there.
///
/// # Errors
///
/// 14 when the word is too long, else what is wrong with the first bundle as in
/// [`screen`], else with the second. Else 19 when the event counts are not the same,
/// and else 15 as in [`screen`].
pub fn screen_joined(first: &[u8], second: &[u8], word: &[u8]) -> Result<Screened, Refusal> {
    check_length(word)?;
    let first = Net::read(first)?;
    let second = Net::read(second)?;
    if first.n != second.n {
        return Err(Refusal {
            number: 19,
            spot: 0,
        });
    }
    check_events(first.n, word)?;
    Ok(replay(first.places.iter().chain(&second.places), word))
}

/// What screening needs of a bundle.
pub struct Net {
    pub n: u8,
    pub places: Vec<Place<i64>>,
}

impl Net {
    /// Reads a bundle up to its last place.
    pub fn read(bundle: &[u8]) -> Result<Self, Refusal> {
        if bundle.is_empty() || bundle.len() > MAX_BUNDLE_SIZE {
            return Err(Refusal { number: 4, spot: 0 });
        }
        let mut reader = Reader::new(bundle);
        let (edition, n) = reader.event_count()?;
        // The words have to be sound, but are not needed.
        reader.words(edition, n, |_| Ok(()))?;
        let places = Place::read_all(&mut reader, n)?;
        Ok(Self { n, places })
    }
}

fn check_length(word: &[u8]) -> Result<(), Refusal> {
    if word.len() > MAX_WORD_EVENTS {
        return Err(Refusal {
            number: 14,
            spot: MAX_WORD_EVENTS,
        });
    }
    Ok(())
}

/// 15 with the first position of a word whose event is not below `n`.
pub fn check_events(n: u8, word: &[u8]) -> Result<(), Refusal> {
    match first_not_below(n, word) {
        Some(spot) => Err(Refusal { number: 15, spot }),
        None => Ok(()),
    }
}

/// The first position of a word whose event is not below `n`.
fn first_not_below(n: u8, word: &[u8]) -> Option<usize> {
    // Mostly there is none. The highest event is found many events at a time, the
    // first position only one by one.
    if word.iter().copied().max() < Some(n) {
        return None;
    }
    word.iter().position(|&event| event >= n)
}

/// What the places say to a word, all of whose events are there.
pub fn replay<'p>(places: impl IntoIterator<Item = &'p Place<i64>>, word: &[u8]) -> Screened {
    // What is permitted by all places so far. A further place has to refuse a step
    // of it, so the lowest place stays where several refuse the same step.
    let mut permitted = word;
    let mut screened = Screened::Permitted;
    for (number, place) in places.into_iter().enumerate() {
        if let Some((position, shortfall)) = place.first_refused(permitted) {
            permitted = &permitted[..position];
            screened = Screened::Stopped {
                position,
                place: number,
                shortfall,
            };
        }
    }
    screened
}

/// All numbers have at most two bytes and the word has at most 65,535 events, so
/// the tokens pass 32 bits, but stay far inside 64.
impl Place<i64> {
    /// The position of the first step that the place refuses, and how many tokens
    /// it lacks there.
    // Not inlined, and no `for` loop: each would be slower by a fifth.
    #[inline(never)]
    fn first_refused(&self, word: &[u8]) -> Option<(usize, usize)> {
        let mut tokens = self.initial;
        let position = word.iter().position(|&event| {
            let event = usize::from(event);
            let permitted = self.permits(tokens, event);
            if permitted {
                tokens += self.change[event];
            }
            !permitted
        })?;
        let event = usize::from(word[position]);
        // Above 0, since the step is refused.
        Some((position, (self.out[event] - tokens) as usize))
    }
}
