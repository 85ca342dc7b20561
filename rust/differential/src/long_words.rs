//! Long words, and places that have no token to spare on them.
//!
//! The library searches a long word in parts, and eight places at a time. What it has to
//! answer does not depend on how; the constants here lie around where the parts and the
//! groups of places end, since that is where such a search goes wrong.

use crate::bundles::{Bundle, Place};
use crate::rng::Rng;
use crate::run::{Outcome, Run};
use crate::screening::{fewest_tokens, net};
use reference::Screened;

/// The events of the first part. Shorter words are not searched in parts.
pub const FIRST: usize = 1_024;

/// The events of each part behind it.
pub const PART: usize = 4_096;

/// Where the second part ends.
pub const SECOND_END: usize = FIRST + PART;

/// Where the third part ends.
pub const THIRD_END: usize = SECOND_END + PART;

/// Positions around the borders, and around those that there would be if the first part had
/// 256 events.
pub const BORDERS: [usize; 18] = [
    0,
    1,
    254,
    255,
    256,
    257,
    258,
    FIRST - 2,
    FIRST - 1,
    FIRST,
    FIRST + 1,
    FIRST + 2,
    4_351,
    4_352,
    4_353,
    SECOND_END - 1,
    SECOND_END,
    SECOND_END + 1,
];

/// Lengths of words that end around a border, and the largest one.
pub const LENGTHS: [usize; 18] = [
    255,
    256,
    257,
    FIRST - 1,
    FIRST,
    FIRST + 1,
    4_351,
    4_352,
    4_353,
    SECOND_END - 1,
    SECOND_END,
    SECOND_END + 1,
    8_448,
    8_449,
    THIRD_END - 1,
    THIRD_END,
    THIRD_END + 1,
    65_535,
];

/// Numbers of places that fill a last group of eight, lack one for it, or have one more.
pub const COUNTS: [usize; 9] = [3, 7, 8, 9, 15, 16, 17, 63, 64];

/// The positions to stop a word of this length at: around the borders, and its last one.
pub fn positions(length: usize) -> Vec<usize> {
    let last = length - 1;
    let before = BORDERS.into_iter().filter(|&position| position < last);
    before.chain([last]).collect()
}

/// A word whose events come in turn, but for a few that occur once each: the marks.
pub struct LongWord {
    /// The event count.
    pub n: usize,
    /// The events.
    pub events: Vec<u8>,
    marks: Vec<usize>,
}

impl LongWord {
    /// A word of this length over `n` events, with marks at these positions. There are
    /// fewer marks than events.
    pub fn new(n: usize, length: usize, marks: &[usize]) -> Self {
        let in_turn = n - marks.len();
        let mut events: Vec<u8> = (0..length).map(|i| (i % in_turn) as u8).collect();
        for (mark, &position) in marks.iter().enumerate() {
            events[position] = (in_turn + mark) as u8;
        }
        Self {
            n,
            events,
            marks: marks.to_vec(),
        }
    }

    /// A place that has just the tokens that each event of the word takes, so that none is
    /// left by any step. `takes` says how many those are for each of the events in turn. A
    /// mark takes and puts what the event whose turn it was would.
    pub fn exact(&self, takes: impl Fn(usize) -> u16) -> Place {
        let in_turn = self.n - self.marks.len();
        let taken_at = |position: usize| takes(position % in_turn);
        // Where each event occurs, those in turn for the first time.
        let positions: Vec<usize> = (0..in_turn).chain(self.marks.iter().copied()).collect();
        Place {
            m: taken_at(0),
            ins: positions.iter().map(|at| taken_at(at + 1)).collect(),
            outs: positions.iter().map(|&at| taken_at(at)).collect(),
        }
    }

    /// So many such places, which take different numbers of tokens, all above 0.
    pub fn places(&self, count: usize) -> Vec<Place> {
        (0..count)
            .map(|place| self.exact(|event| (1 + (place * 7 + event * 11) % 23) as u16))
            .collect()
    }

    /// Lets a mark take so many tokens more out of a place, and put them back: it lacks them
    /// at the mark, and nowhere else.
    pub fn take_more(&self, place: &mut Place, mark: usize, tokens: u16) {
        let event = self.n - self.marks.len() + mark;
        place.outs[event] += tokens;
        place.ins[event] += tokens;
    }

    /// Lets a mark put so many tokens fewer into a place: it lacks them at each event behind.
    pub fn put_fewer(&self, place: &mut Place, mark: usize, tokens: u16) {
        let event = self.n - self.marks.len() + mark;
        place.ins[event] -= tokens;
    }
}

/// Screens a word with these places on both sides, which has to be answered so.
pub fn check(run: &mut Run, places: &[Place], word: &[u8], expected: Outcome<Screened>) {
    let n = places[0].ins.len();
    let outcome = run.screen(&net(n, places.to_vec()).bytes(), word);
    assert_eq!(
        outcome,
        expected,
        "{} places, {n} events, a word of {}, {run}",
        places.len(),
        word.len()
    );
}

/// A place that loses a token with each event, whichever it is, and first lacks one at this
/// position. Each event takes more than one and puts some back.
pub fn draining(n: usize, position: usize) -> Place {
    let back = 3.min(65_535 - position);
    Place {
        m: (position + back) as u16,
        ins: vec![back as u16; n],
        outs: vec![back as u16 + 1; n],
    }
}

/// A net of so many places, each with the fewest initial tokens with which it permits this
/// word. The events put what they take, in another order, so that on a random word the
/// tokens do not pile up; in half of the places one event puts a token less, so that they
/// run out late.
pub fn tight_net(rng: &mut Rng, n: usize, count: usize, word: &[u8]) -> Bundle {
    let mut place = |_| {
        let largest = rng.choose(&[1, 3, 40, 300]);
        let outs: Vec<u16> = (0..n).map(|_| rng.within(0..=largest) as u16).collect();
        let mut ins = rng.shuffled(&outs);
        let event = rng.below(n);
        ins[event] = ins[event].saturating_sub(rng.below(2) as u16);
        let m = u16::try_from(fewest_tokens(&ins, &outs, word)).unwrap_or(u16::MAX);
        Place { m, ins, outs }
    };
    net(n, (0..count).map(&mut place).collect())
}
