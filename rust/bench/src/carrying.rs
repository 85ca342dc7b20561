//! The carried engine, beside the screening of words on the same bundles: of the whole word
//! anew, and of the empty word, which is hardly more than reading the bundle up to its last
//! place. Replacing a net is beside screening the events so far.

use crate::calls::{Buffers, Call, Side};
use crate::nets::{largest_with_log, longest_stop, longest_with_log, Screening, LAST};
use crate::words::{screen_ours, screen_reference, without_output};
use differential::bundles::{MAX_PLACES, SAMPLE_A};
use hovmekhar::{MAX_EVENTS, MAX_TOKENS};
use std::hint::black_box;

/// How many events there were before one that is played.
const SO_FAR: usize = 7;

/// A bundle, the tokens of its places, a buffer of events, and an event to play.
pub struct Carried {
    bundle: Vec<u8>,
    tokens: Vec<u64>,
    kept: Vec<u8>,
    event: usize,
}

/// Starts, and steps that are permitted or stopped.
pub fn on_tokens() -> Vec<Call<Carried, u8>> {
    let sizes: [Prepared; 3] = [
        ("2 places, 2 events", small),
        ("64 places, 1,024 log events", large),
        ("64 places, 1,024 log events, stopped", large_stop),
    ];
    let mut all = lines("start", &sizes[..2], start_ours, start_reference);
    all.extend(lines("step", &sizes, step_ours, step_reference));
    all
}

/// A net in place of another one, which is as large: behind few events, as many as there can
/// be, and such that the new net stops on the last.
pub fn on_kept_events() -> Vec<Call<Replacing, u8>> {
    let sizes: [PreparedNets; 4] = [
        ("2 places, 2 events", || {
            replacing(word(SAMPLE_A.to_vec(), vec![0, 1]))
        }),
        ("64 places, 1,024 log events, 32 events", || {
            replacing(longest(32))
        }),
        ("64 places, 1,024 log events, 65,535 events", || {
            replacing(longest(65_535))
        }),
        ("64 places, 65,535 events, stopped", || {
            replacing(without_output(longest_stop(LAST)))
        }),
    ];
    let line = |&(size, prepare): &PreparedNets| Call {
        name: "replace",
        size,
        prepare,
        ours: replace_ours,
        reference: replace_reference,
    };
    sizes.iter().map(line).collect()
}

/// The screening of words on the same bundles.
pub fn on_words() -> Vec<Call<Screening<1>, u8>> {
    let sizes: [PreparedWord; 4] = [
        ("2 places, no event", || word(SAMPLE_A.to_vec(), Vec::new())),
        ("64 places, 1,024 log events, no event", || longest(0)),
        ("64 places, 1,024 log events, 32 events", || longest(32)),
        ("64 places, 1,024 log events, 65,535 events", || {
            longest(65_535)
        }),
    ];
    let line = |&(size, prepare): &PreparedWord| Call {
        name: "screen",
        size,
        prepare,
        ours: screen_ours,
        reference: screen_reference,
    };
    sizes.iter().map(line).collect()
}

/// A size, and the buffers with such a bundle.
type Prepared = (&'static str, fn() -> Buffers<Carried, u8>);

/// A net to replace, the new one, the tokens, and the events so far.
pub struct Replacing {
    nets: [Vec<u8>; 2],
    tokens: Vec<u64>,
    kept: Vec<u8>,
}

/// A size, and such buffers.
type PreparedNets = (&'static str, fn() -> Buffers<Replacing, u8>);

/// The same with a word to screen.
type PreparedWord = (&'static str, fn() -> Buffers<Screening<1>, u8>);

/// A line for each size.
fn lines(
    name: &'static str,
    sizes: &[Prepared],
    ours: Side<Carried, u8>,
    reference: Side<Carried, u8>,
) -> Vec<Call<Carried, u8>> {
    let line = |&(size, prepare): &Prepared| Call {
        name,
        size,
        prepare,
        ours,
        reference,
    };
    sizes.iter().map(line).collect()
}

/// Sample A. Event 0 takes a token out of place 1, and so many last for all rounds.
fn small() -> Buffers<Carried, u8> {
    without_output(Carried {
        bundle: SAMPLE_A.to_vec(),
        tokens: vec![1, MAX_TOKENS],
        kept: vec![0; SO_FAR + 1],
        event: 0,
    })
}

/// The largest net, whose last event puts back what it takes, at most 4 tokens.
fn large() -> Buffers<Carried, u8> {
    without_output(Carried {
        bundle: largest_with_log().bytes(),
        tokens: vec![4; MAX_PLACES],
        kept: vec![0; SO_FAR + 1],
        event: MAX_EVENTS - 1,
    })
}

/// The same, without a token in the last place, which takes one.
fn large_stop() -> Buffers<Carried, u8> {
    let mut buffers = large();
    let mut net = largest_with_log();
    net.places[MAX_PLACES - 1].outs.fill(1);
    buffers.input.bundle = net.bytes();
    buffers.input.tokens[MAX_PLACES - 1] = 0;
    buffers
}

fn word(bundle: Vec<u8>, word: Vec<u8>) -> Buffers<Screening<1>, u8> {
    without_output(Screening {
        bundles: [bundle],
        word,
    })
}

/// The beginning of this length of the longest word.
fn longest(length: usize) -> Buffers<Screening<1>, u8> {
    let mut screening = longest_with_log();
    screening.word.truncate(length);
    without_output(screening)
}

/// The net of a screening in its own place, behind its word.
fn replacing(screening: Buffers<Screening<1>, u8>) -> Buffers<Replacing, u8> {
    let Screening {
        bundles: [net],
        word: kept,
    } = screening.input;
    without_output(Replacing {
        nets: [net.clone(), net],
        tokens: vec![0; MAX_PLACES],
        kept,
    })
}

fn start_ours(buffers: &mut Buffers<Carried, u8>) -> Option<usize> {
    let Carried { bundle, tokens, .. } = &mut buffers.input;
    hovmekhar::start(black_box(bundle), black_box(tokens)).ok()
}

fn start_reference(buffers: &mut Buffers<Carried, u8>) -> Option<usize> {
    let Carried { bundle, tokens, .. } = &mut buffers.input;
    reference::start(black_box(bundle), black_box(tokens)).ok()
}

fn step_ours(buffers: &mut Buffers<Carried, u8>) -> Option<usize> {
    let Carried {
        bundle,
        tokens,
        kept,
        event,
    } = &mut buffers.input;
    let (bundle, tokens, kept) = (black_box(bundle), black_box(tokens), black_box(kept));
    let step = hovmekhar::step(bundle, tokens, kept, SO_FAR, black_box(*event));
    Some(match step.ok()? {
        hovmekhar::Step::Moved(number) => number,
        hovmekhar::Step::Stopped {
            position,
            place,
            shortfall,
        } => position + place + shortfall,
    })
}

fn step_reference(buffers: &mut Buffers<Carried, u8>) -> Option<usize> {
    let Carried {
        bundle,
        tokens,
        kept,
        event,
    } = &mut buffers.input;
    let (bundle, tokens, kept) = (black_box(bundle), black_box(tokens), black_box(kept));
    let step = reference::step(bundle, tokens, kept, SO_FAR, black_box(*event));
    Some(match step.ok()? {
        reference::Step::Moved(number) => number,
        reference::Step::Stopped {
            position,
            place,
            shortfall,
        } => position + place + shortfall,
    })
}

/// The tokens of the first place, or where the new net stops.
fn replace_ours(buffers: &mut Buffers<Replacing, u8>) -> Option<usize> {
    let Replacing { nets, tokens, kept } = &mut buffers.input;
    let [old, new] = nets.each_ref().map(black_box);
    let replaced = hovmekhar::replace(old, new, black_box(tokens), black_box(kept), kept.len());
    match replaced {
        Ok(()) => Some(tokens[0] as usize),
        Err(refusal) => (refusal.number == 23).then_some(refusal.spot),
    }
}

fn replace_reference(buffers: &mut Buffers<Replacing, u8>) -> Option<usize> {
    let Replacing { nets, tokens, kept } = &mut buffers.input;
    let [old, new] = nets.each_ref().map(black_box);
    let replaced = reference::replace(old, new, black_box(tokens), black_box(kept), kept.len());
    match replaced {
        Ok(()) => Some(tokens[0] as usize),
        Err(refusal) => (refusal.number == 23).then_some(refusal.spot),
    }
}
