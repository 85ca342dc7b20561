//! The search for a word that leads to an event: the empty one, words of five events, and none.

use crate::calls::{Buffers, Call};
use crate::words::without_output;
use differential::bundles::{Bundle, Place, MAX_PLACES, SAMPLE_A};
use differential::screening::net;
use hovmekhar::{MAX_EVENTS, MAX_REACH_EVENTS};
use std::hint::black_box;

/// The wanted event of the largest nets: the last one.
const WANTED: usize = MAX_EVENTS - 1;

/// A bundle, and a wanted event.
pub struct Search {
    bundle: Vec<u8>,
    wanted: usize,
}

/// A size, and the buffers with such a bundle.
type Prepared = (&'static str, fn() -> Buffers<Search, u8>);

/// The searches. What a line says of the word, the reference confirms.
pub fn on_nets() -> Vec<Call<Search, u8>> {
    let sizes: [Prepared; 5] = [
        ("2 places, no event", || {
            search(SAMPLE_A.to_vec(), 1, Some(&[]))
        }),
        ("64 places, no event", || {
            search(large_net().bytes(), WANTED, Some(&[]))
        }),
        ("64 places, 5 events, in one order", in_one_order),
        ("64 places, 5 events, the last word", last_word),
        ("64 places, none", none),
    ];
    let line = |&(size, prepare): &Prepared| Call {
        name: "reach",
        size,
        prepare,
        ours,
        reference,
    };
    sizes.iter().map(line).collect()
}

fn search(bundle: Vec<u8>, wanted: usize, expected: Option<&[u8]>) -> Buffers<Search, u8> {
    let reached = reference::reach(&bundle, wanted);
    assert_eq!(reached, Ok(expected.map(<[u8]>::to_vec)));
    without_output(Search { bundle, wanted })
}

/// Each of five events in turn puts the token that the next one takes, so that most prefixes
/// are refused.
fn in_one_order() -> Buffers<Search, u8> {
    let word = [7, 3, 10, 0, 5];
    let mut net = large_net();
    let takers = word[1..].iter().copied().chain([WANTED as u8]);
    for (place, (event, taker)) in net.places.iter_mut().rev().zip(word.iter().zip(takers)) {
        *place = empty();
        place.ins[usize::from(*event)] = 1;
        place.outs[usize::from(taker)] = 1;
    }
    search(net.bytes(), WANTED, Some(&word))
}

/// The wanted event takes five tokens that only the event before it puts, each one: all words
/// of the eleven others are permitted, and the last one leads there.
fn last_word() -> Buffers<Search, u8> {
    let mut net = large_net();
    let last = &mut net.places[MAX_PLACES - 1];
    *last = empty();
    last.ins[WANTED - 1] = 1;
    last.outs[WANTED] = MAX_REACH_EVENTS as u16;
    let word = [WANTED as u8 - 1; MAX_REACH_EVENTS];
    search(net.bytes(), WANTED, Some(&word))
}

/// The last place refuses the wanted event, and nothing else is refused.
fn none() -> Buffers<Search, u8> {
    let mut net = large_net();
    let last = &mut net.places[MAX_PLACES - 1];
    *last = empty();
    last.outs[WANTED] = 1;
    search(net.bytes(), WANTED, None)
}

/// A place without tokens.
fn empty() -> Place {
    Place {
        m: 0,
        ins: vec![0; MAX_EVENTS],
        outs: vec![0; MAX_EVENTS],
    }
}

/// As many places and events as there can be. The net permits every word of six events.
///
/// Each place could refuse: it has events that take more out of it than they put in, and
/// about the fewest initial tokens with which it permits all these words. A search could
/// leave out one that has more than enough.
fn large_net() -> Bundle {
    let place = |number: usize| {
        let outs: Vec<u16> = (0..MAX_EVENTS)
            .map(|e| ((e * 7 + number) % 5) as u16)
            .collect();
        let mut ins = outs.clone();
        ins.rotate_left(1);
        let loss = outs
            .iter()
            .zip(&ins)
            .map(|(out, put)| out.saturating_sub(*put));
        let most_lost = loss.max().unwrap_or_default();
        let most_taken = outs.iter().copied().max().unwrap_or_default();
        Place {
            m: MAX_REACH_EVENTS as u16 * most_lost + most_taken,
            ins,
            outs,
        }
    };
    net(MAX_EVENTS, (0..MAX_PLACES).map(place).collect())
}

/// The sum of the word's events and its length, or what no word has.
fn ours(buffers: &mut Buffers<Search, u8>) -> Option<usize> {
    let Search { bundle, wanted } = &buffers.input;
    let reached = hovmekhar::reach(black_box(bundle), black_box(*wanted));
    Some(reached.ok()?.map_or(usize::MAX, |word| told(&word)))
}

fn reference(buffers: &mut Buffers<Search, u8>) -> Option<usize> {
    let Search { bundle, wanted } = &buffers.input;
    let reached = reference::reach(black_box(bundle), black_box(*wanted));
    Some(reached.ok()?.map_or(usize::MAX, |word| told(&word)))
}

fn told(word: &[u8]) -> usize {
    let events: usize = word.iter().map(|&event| usize::from(event)).sum();
    word.len() + events
}
