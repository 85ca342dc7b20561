//! The carried engine: the tokens of the places move with each event, and another net can
//! take the place of the one that is played.
//!
//! A call keeps nothing, so each reads the bundle up to its last place anew. Of a place a
//! start and a step need few numbers, which they take from where they stand.

use crate::blocks::MAX_BUNDLE_SIZE;
use crate::places::Place;
use crate::places::MAX_PLACES;
use crate::reader::Reader;
use crate::screening::{self, MAX_WORD_EVENTS};
use crate::tables::MAX_EVENTS;
use crate::{Refusal, Screened};

/// The most tokens that a place can have after that many events.
const MAX_TOKENS: u64 = 65_535 + MAX_WORD_EVENTS as u64 * 65_535;

/// What a step does.
#[derive(Clone, Copy, Debug, PartialEq, Eq)]
pub enum Step {
    /// The tokens are moved and the event is kept; so many were played with this one.
    Moved(usize),
    /// The event is refused; no token is moved, and it is not kept.
    Stopped {
        /// How many events were played before it.
        position: usize,
        /// The lowest place that refuses it.
        place: usize,
        /// How many tokens this place lacks for it.
        shortfall: usize,
    },
}

/// Writes the initial tokens of the places of a bundle to the front of `tokens`, and
/// returns the number of events so far, 0.
///
/// # Errors
///
/// 4, 6, 7 or 8 as in [`screen`](crate::screen), else 5 with the place count when there
/// are fewer tokens than places; nothing is written.
pub fn start(bundle: &[u8], tokens: &mut [u64]) -> Result<usize, Refusal> {
    let net = Net::read(bundle)?;
    let tokens = own(tokens, net.count)?;
    for (tokens, place) in tokens.iter_mut().zip(net.places()) {
        *tokens = number(place, 0);
    }
    Ok(0)
}

/// Plays an event behind `number` others: the tokens of all places are moved and the event
/// is kept behind those so far, or nothing is written where a place refuses it.
///
/// # Errors
///
/// 14 when there were 65,535 events or more; else as in [`start`]; else 16 with the lowest
/// place whose tokens are above those that a run reaches; else 15 with `number` when the
/// event is not below the event count; else 3 with the length needed when `kept` has no
/// room for it. Nothing is written.
pub fn step(
    bundle: &[u8],
    tokens: &mut [u64],
    kept: &mut [u8],
    number: usize,
    event: usize,
) -> Result<Step, Refusal> {
    if number >= MAX_WORD_EVENTS {
        return Err(Refusal {
            number: 14,
            spot: MAX_WORD_EVENTS,
        });
    }
    let net = Net::read(bundle)?;
    let tokens = own(tokens, net.count)?;
    if let Some(spot) = tokens.iter().position(|&tokens| tokens > MAX_TOKENS) {
        return Err(Refusal { number: 16, spot });
    }
    if event >= net.n {
        return Err(Refusal {
            number: 15,
            spot: number,
        });
    }
    let kept = kept.get_mut(number).ok_or(Refusal {
        number: 3,
        spot: number + 1,
    })?;
    Ok(match net.play(tokens, event) {
        None => {
            *kept = event as u8;
            Step::Moved(number + 1)
        }
        Some((place, shortfall)) => Step::Stopped {
            position: number,
            place,
            shortfall,
        },
    })
}

/// Replaces the net of a run behind the first `number` events of `kept`: writes the tokens
/// that the places of the new bundle have behind them to the front of `tokens`.
///
/// # Errors
///
/// 14 when there were more than 65,535 events; else 3 with `number` when fewer are kept;
/// else 4, 6, 7 or 8 as in [`screen`](crate::screen) for the old bundle, else for the new
/// one; else 22 when the event counts are not the same; else 5 with the new place count when
/// there are fewer tokens than places; else 15 with the first position of an event that is
/// not below the event count; else 23 with the position of the first event that the new net
/// refuses. Nothing is written.
pub fn replace(
    old: &[u8],
    new: &[u8],
    tokens: &mut [u64],
    kept: &[u8],
    number: usize,
) -> Result<(), Refusal> {
    if number > MAX_WORD_EVENTS {
        return Err(Refusal {
            number: 14,
            spot: MAX_WORD_EVENTS,
        });
    }
    let word = kept.get(..number).ok_or(Refusal {
        number: 3,
        spot: number,
    })?;
    // Of the old net only the event count is needed. The events are replayed on the new one.
    let old = Net::read(old)?;
    let new = screening::Net::read(new)?;
    if old.n != usize::from(new.n) {
        return Err(Refusal {
            number: 22,
            spot: 0,
        });
    }
    let tokens = own(tokens, new.places.len())?;
    screening::check_events(new.n, word)?;
    if let Screened::Stopped { position, .. } = screening::replay(&new.places, word) {
        return Err(Refusal {
            number: 23,
            spot: position,
        });
    }
    let counts = count(word);
    for (tokens, place) in tokens.iter_mut().zip(&new.places) {
        *tokens = marking(place, &counts);
    }
    Ok(())
}

/// The tokens of as many places.
fn own(tokens: &mut [u64], places: usize) -> Result<&mut [u64], Refusal> {
    tokens.get_mut(..places).ok_or(Refusal {
        number: 5,
        spot: places,
    })
}

/// How often each event occurs in a word.
fn count(word: &[u8]) -> [i64; MAX_EVENTS] {
    let mut counts = [0; MAX_EVENTS];
    for &event in word {
        counts[usize::from(event)] += 1;
    }
    counts
}

/// The tokens of a place behind events of these counts, none of which it refuses.
fn marking(place: &Place<i64>, counts: &[i64; MAX_EVENTS]) -> u64 {
    let changes = counts.iter().zip(&place.change);
    let gained: i64 = changes.map(|(count, change)| count * change).sum();
    (place.initial + gained) as u64
}

/// The places of a bundle, as they stand in it.
pub struct Net<'b> {
    pub n: usize,
    pub count: usize,
    bytes: &'b [u8],
}

impl<'b> Net<'b> {
    /// Reads a bundle up to its last place.
    pub fn read(bundle: &'b [u8]) -> Result<Self, Refusal> {
        if bundle.is_empty() || bundle.len() > MAX_BUNDLE_SIZE {
            return Err(Refusal { number: 4, spot: 0 });
        }
        let mut reader = Reader::new(bundle);
        let (edition, n) = reader.event_count()?;
        // The words have to be sound, but are not needed.
        reader.words(edition, n, |_| Ok(()))?;
        let count = reader.byte(..=MAX_PLACES)?.into();
        let n = usize::from(n);
        let bytes = reader.numbers(count * (1 + 2 * n))?;
        Ok(Self { n, count, bytes })
    }

    /// The bytes of each place.
    pub fn places(&self) -> impl Iterator<Item = &'b [u8]> {
        self.bytes.chunks_exact(2 * (1 + 2 * self.n))
    }

    /// Moves the tokens, or gives the lowest place that refuses the event, and how many
    /// tokens it lacks.
    fn play(&self, tokens: &mut [u64], event: usize) -> Option<(usize, usize)> {
        let (put, out) = (1 + event, 1 + self.n + event);
        for (j, (tokens, place)) in tokens.iter().zip(self.places()).enumerate() {
            let out = number(place, out);
            if *tokens < out {
                return Some((j, (out - tokens) as usize));
            }
        }
        for (tokens, place) in tokens.iter_mut().zip(self.places()) {
            *tokens = *tokens - number(place, out) + number(place, put);
        }
        None
    }
}

/// A number of a place: 0 is the initial tokens, then those that each event puts into it come,
/// then those that each takes out.
pub fn number(place: &[u8], index: usize) -> u64 {
    let bytes = [place[2 * index], place[2 * index + 1]];
    u16::from_le_bytes(bytes).into()
}
