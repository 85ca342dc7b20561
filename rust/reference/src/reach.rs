//! A shortest word that leads to an event.
//!
//! The words are tried by length, and those of one length in the order of their events. A
//! prefix that a place refuses is left with all words that begin with it, and the tokens
//! move with each event. The last event and the wanted one are tested at once.

use crate::engine::{number, Net};
use crate::places::MAX_PLACES;
use crate::Refusal;

/// The most events of such a word.
const MAX_EVENTS: usize = 5;

/// How many places are tested without a branch.
const LANES: usize = 32;

/// A number for each place; those behind the last place are 0. With few events they stay far
/// inside 32 bits. Aligned, since the search then takes a sixth less time.
#[derive(Clone, Copy, Default)]
#[repr(align(64))]
struct Numbers([[i32; LANES]; MAX_PLACES as usize / LANES]);

/// Looks for the first of the shortest words of at most five events that the net of a bundle
/// permits with the event `wanted` behind them.
///
/// # Errors
///
/// 4, 6, 7 or 8 as in [`screen`](crate::screen), else 15 with spot 0 when `wanted` is not
/// below the event count.
pub fn reach(bundle: &[u8], wanted: usize) -> Result<Option<Vec<u8>>, Refusal> {
    let net = Net::read(bundle)?;
    if wanted >= net.n {
        return Err(Refusal {
            number: 15,
            spot: 0,
        });
    }
    // For the empty word few numbers are needed, which are taken from where they stand.
    let out = 1 + net.n + wanted;
    let mut places = net.places();
    if places.all(|place| number(place, 0) >= number(place, out)) {
        return Ok(Some(Vec::new()));
    }
    let search = Search::new(&net, wanted);
    let mut word = [0; MAX_EVENTS];
    let found = (1..=MAX_EVENTS).find(|&length| search.fill(&mut word[..length], &search.initial));
    Ok(found.map(|length| word[..length].to_vec()))
}

/// The places side by side.
struct Search {
    /// How many of [`LANES`] places there are.
    blocks: usize,
    initial: Numbers,
    events: Vec<Event>,
}

struct Event {
    /// What it takes out of each place.
    out: Numbers,
    /// What it puts into each place, less what it takes out.
    change: Numbers,
    /// With how many tokens a place permits it and then the wanted event.
    both: Numbers,
}

impl Search {
    fn new(net: &Net, wanted: usize) -> Self {
        let column = |index: usize| {
            let mut column = Numbers::default();
            for (lane, place) in column.0.as_flattened_mut().iter_mut().zip(net.places()) {
                *lane = number(place, index) as i32;
            }
            column
        };
        let outs: Vec<Numbers> = (0..net.n).map(|e| column(1 + net.n + e)).collect();
        let event = |e: usize| {
            let out = outs[e];
            let change = combine(&column(1 + e), &out, |put, out| put - out);
            let behind = combine(&outs[wanted], &change, |wanted, change| wanted - change);
            let both = combine(&out, &behind, i32::max);
            Event { out, change, both }
        };
        Self {
            blocks: net.count.div_ceil(LANES),
            initial: column(0),
            events: (0..net.n).map(event).collect(),
        }
    }

    /// Fills a word with the first one of its length that is permitted from these tokens on,
    /// with the wanted event behind it. False when there is none.
    fn fill(&self, word: &mut [u8], tokens: &Numbers) -> bool {
        let Some((first, rest)) = word.split_first_mut() else {
            return false;
        };
        let found = self.events.iter().position(|event| {
            if rest.is_empty() {
                // What the event puts counts for the wanted one, and not for itself.
                return self.covers(tokens, &event.both);
            }
            self.covers(tokens, &event.out) && self.fill(rest, &self.moved(tokens, &event.change))
        });
        *first = found.unwrap_or(0) as u8;
        found.is_some()
    }

    /// Whether each place has so many tokens.
    fn covers(&self, tokens: &Numbers, needed: &Numbers) -> bool {
        let mut blocks = tokens.0[..self.blocks].iter().zip(&needed.0);
        blocks.all(|(tokens, needed)| {
            // Where one has too few a difference is negative, and so are then all bits together.
            let lanes = tokens.iter().zip(needed);
            lanes.fold(0, |bits, (tokens, needed)| bits | (tokens - needed)) >= 0
        })
    }

    fn moved(&self, tokens: &Numbers, change: &Numbers) -> Numbers {
        let mut moved = *tokens;
        for (block, change) in moved.0[..self.blocks].iter_mut().zip(&change.0) {
            for (tokens, change) in block.iter_mut().zip(change) {
                *tokens += change;
            }
        }
        moved
    }
}

/// A number for each place, of two.
fn combine(first: &Numbers, second: &Numbers, of_two: impl Fn(i32, i32) -> i32) -> Numbers {
    let mut combined = *first;
    let numbers = combined.0.as_flattened_mut().iter_mut();
    for (first, &second) in numbers.zip(second.0.as_flattened()) {
        *first = of_two(*first, second);
    }
    combined
}
