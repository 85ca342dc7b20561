//! A further reading of the rules for the search for a word besides the reference, kept as
//! close to their wording as possible and without regard to speed; and nets to search.

use crate::bundles::{Bundle, Place, MAX_PLACES};
use crate::logs::{counts_below, random_word};
use crate::places::{self, first_refused};
use crate::rng::Rng;
use crate::run::{refusal, Outcome, Run};
use crate::screening::{net, read_net};
use std::collections::BTreeSet;

/// The most events of a word that is looked for.
pub const MOST: usize = 5;

/// The first of the shortest words that lead to an event by the definitions: all words are
/// tried in order.
pub fn reach_by_definitions(bundle: &[u8], wanted: usize) -> Outcome<Option<Vec<u8>>> {
    let (n, places) = read_net(bundle)?;
    if wanted >= n {
        return refusal(15, 0);
    }
    let leads = |word: &Vec<u8>| first_refused(n, &places, &with(word, wanted)).is_none();
    Ok((0..=MOST).flat_map(|length| words(n, length)).find(leads))
}

/// A word with an event behind it.
pub fn with(word: &[u8], event: usize) -> Vec<u8> {
    [word, &[event as u8]].concat()
}

/// All words of a length over `n` events, in the order of their events.
pub fn words(n: usize, length: usize) -> impl Iterator<Item = Vec<u8>> {
    let power = move |exponent: usize| n.pow(exponent as u32);
    let event = move |number: usize, position: usize| {
        let behind = length - 1 - position;
        (number / power(behind) % n) as u8
    };
    (0..power(length)).map(move |number| {
        let events = (0..length).map(|position| event(number, position));
        events.collect()
    })
}

/// Looks for a word on both sides, and checks the answer by the definitions.
pub fn reach(run: &mut Run, bundle: &[u8], wanted: usize) -> Outcome<Option<Vec<u8>>> {
    let reached = run.reach(bundle, wanted);
    let expected = reach_by_definitions(bundle, wanted);
    assert_eq!(reached, expected, "{bundle:?}, {wanted}, {run}");
    reached
}

/// Numbers that may be wanted on a net of `n` events: mostly an event that is there.
pub fn any_wanted(rng: &mut Rng, n: usize) -> usize {
    match rng.below(5) {
        0 => rng.choose(&[n, n + 1, 12, 255, 256, 256 + n, 65_536, 1 << 32, usize::MAX]),
        _ => rng.below(n),
    }
}

/// A bundle over up to five events with few tokens, and a wanted event that takes some: often
/// a word of several events leads there. In either edition.
pub fn few_tokens(rng: &mut Rng) -> (Bundle, usize) {
    let n = rng.within(2..=5);
    let wanted = rng.below(n);
    let count = rng.within(1..=6);
    let mut places: Vec<Place> = (0..count).map(|_| small_place(rng, n)).collect();
    for place in &mut places {
        if rng.below(2) == 0 {
            place.outs[wanted] = rng.within(1..=5) as u16;
        }
    }
    (with_log(rng, net(n, places)), wanted)
}

fn small_place(rng: &mut Rng, n: usize) -> Place {
    let mut numbers = |of: &[u16]| (0..n).map(|_| rng.choose(of)).collect();
    let (ins, outs) = (numbers(&[0, 0, 1, 1, 2]), numbers(&[0, 0, 0, 1]));
    let m = rng.choose(&[0, 0, 1, 2]);
    Place { m, ins, outs }
}

/// A bundle over three to five events, each of which takes tokens out of one or two of few places
/// and puts some into others, and a wanted event that takes more: the place that refuses an
/// event depends on the prefix. In between are up to 59 places that refuse nothing. In either
/// edition.
pub fn moving_tokens(rng: &mut Rng) -> (Bundle, usize) {
    let n = rng.within(3..=5);
    let wanted = rng.below(n);
    let count = rng.within(2..=5);
    let mut places = vec![empty(n); count];
    for _ in 0..rng.within(2..=5) {
        places[rng.below(count)].m += 1;
    }
    for event in 0..n {
        for _ in 0..rng.choose(&[1, 1, 2]) {
            let (low, high) = rng.two_below(count);
            let (from, to) = rng.choose(&[(low, high), (high, low)]);
            places[from].outs[event] += 1;
            places[to].ins[event] += rng.choose(&[1, 1, 1, 2]);
        }
    }
    for _ in 0..rng.within(1..=2) {
        places[rng.below(count)].outs[wanted] += rng.choose(&[1, 2, 3]);
    }
    places.extend((0..rng.choose(&[0, 0, 3, 30, 59])).map(|_| idle(rng, n)));
    let places = rng.shuffled(&places);
    (with_log(rng, net(n, places)), wanted)
}

/// For the event that has most of them: how many places refuse it alone, each behind some
/// prefix of at most five events that the net permits.
pub fn alone_refusing(bundle: &Bundle) -> usize {
    let places: Vec<_> = bundle.places.iter().map(places::Place::from).collect();
    let prefixes = (0..=MOST).flat_map(|length| words(bundle.n, length));
    let mut alone = vec![BTreeSet::new(); bundle.n];
    for prefix in prefixes.filter(|prefix| first_refused(bundle.n, &places, prefix).is_none()) {
        let counts = counts_below(bundle.n, &prefix);
        for (event, alone) in alone.iter_mut().enumerate() {
            let mut refusing = (0..places.len()).filter(|&j| places[j].surplus(&counts, event) < 0);
            if let (Some(place), None) = (refusing.next(), refusing.next()) {
                alone.insert(place);
            }
        }
    }
    alone.iter().map(BTreeSet::len).max().unwrap_or_default()
}

/// The bundle with a log in front of its places, in either edition.
fn with_log(rng: &mut Rng, bundle: Bundle) -> Bundle {
    let words: Vec<_> = (0..rng.below(4))
        .map(|_| random_word(rng, bundle.n, 0..=9))
        .collect();
    let marks = words.iter().map(|_| rng.below(2) == 0).collect();
    let is_new = rng.below(2) == 0;
    Bundle {
        marks: is_new.then_some(marks),
        words,
        ..bundle
    }
}

/// How the words look that lead to the wanted event.
#[derive(Clone, Copy, Debug, PartialEq, Eq)]
pub enum Shape {
    /// Each event puts the token that the next one takes, and the last that of the wanted one:
    /// this word alone.
    Chain,
    /// Some events put a token each into the place of which the wanted one takes several.
    Gathered,
    /// The wanted event takes the tokens of several places, of which each event fills one.
    Sorted,
}

/// A net, and the word that leads to the wanted event. It may have 6 events: then there is
/// no answer.
#[derive(Clone, Debug)]
pub struct Goal {
    /// The net.
    pub bundle: Bundle,
    /// The wanted event.
    pub wanted: usize,
    /// The first of the shortest words.
    pub word: Vec<u8>,
}

impl Shape {
    /// All of them.
    pub const ALL: [Self; 3] = [Self::Chain, Self::Gathered, Self::Sorted];

    /// A net over `n` events on which a word of this length leads to the wanted event, and no
    /// shorter one. There are more events than that, and up to 64 places in any order, most of
    /// which refuse nothing.
    pub fn goal(self, rng: &mut Rng, n: usize, length: usize) -> Goal {
        let events: Vec<u8> = (0..n as u8).collect();
        let mut events = rng.shuffled(&events);
        let wanted = usize::from(events.pop().expect("an event"));
        let (word, mut places) = match self {
            Self::Chain => chain(n, wanted, &events[..length]),
            Self::Gathered => gathered(rng, n, wanted, &events, length),
            Self::Sorted => sorted(rng, n, wanted, &events, length),
        };
        let more = rng
            .choose(&[0, 1, 7, MAX_PLACES])
            .saturating_sub(places.len());
        places.extend((0..more).map(|_| idle(rng, n)));
        let places = rng.shuffled(&places);
        Goal {
            bundle: with_log(rng, net(n, places)),
            wanted,
            word,
        }
    }
}

/// A place without tokens, into which nothing puts any.
fn empty(n: usize) -> Place {
    Place {
        m: 0,
        ins: vec![0; n],
        outs: vec![0; n],
    }
}

/// A place that refuses no event of a word of seven.
fn idle(rng: &mut Rng, n: usize) -> Place {
    let mut numbers = || (0..n).map(|_| rng.below(1_000) as u16).collect();
    let (ins, outs) = (numbers(), numbers());
    let m = 7_000 + rng.below(50_000) as u16;
    Place { m, ins, outs }
}

fn chain(n: usize, wanted: usize, events: &[u8]) -> (Vec<u8>, Vec<Place>) {
    let takers = events[1.min(events.len())..]
        .iter()
        .map(|&event| usize::from(event));
    let takers = takers.chain([wanted]);
    let places = events.iter().zip(takers).map(|(&event, taker)| {
        let mut place = empty(n);
        place.ins[usize::from(event)] = 1;
        place.outs[taker] = 1;
        place
    });
    (events.to_vec(), places.collect())
}

fn gathered(
    rng: &mut Rng,
    n: usize,
    wanted: usize,
    events: &[u8],
    length: usize,
) -> (Vec<u8>, Vec<Place>) {
    let mut place = empty(n);
    let each = rng.choose(&[1, 2, 255, 256, 10_000]);
    let spare = rng.below(usize::from(each)) as u16;
    let some = &events[..events.len().min(3)];
    for &event in some {
        place.ins[usize::from(event)] = each;
    }
    place.outs[wanted] = each * length as u16;
    // What is there already is less than an event puts.
    place.m = if length == 0 { 0 } else { spare };
    let lowest = some.iter().copied().min().unwrap_or(0);
    (vec![lowest; length], vec![place])
}

fn sorted(
    rng: &mut Rng,
    n: usize,
    wanted: usize,
    events: &[u8],
    length: usize,
) -> (Vec<u8>, Vec<Place>) {
    let mut word: Vec<u8> = (0..length).map(|_| rng.choose(events)).collect();
    word.sort_unstable();
    let places = events.iter().map(|&event| {
        let mut place = empty(n);
        place.ins[usize::from(event)] = 1;
        place.outs[wanted] = word.iter().filter(|&&other| other == event).count() as u16;
        place
    });
    let places = places.collect();
    (word, places)
}
