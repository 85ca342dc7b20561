//! A further reading of the rules for the carried engine besides the reference, kept as
//! close to their wording as possible and without regard to speed.

mod lending;

use crate::places::{first_refused, Place};
use crate::run::{refusal, Carried, Outcome, Played, Run};
use crate::screening::{read_net, MAX_WORD_EVENTS};
use reference::{Screened, Step};

pub use lending::{any_event, any_kept, any_number, any_tokens, lengths, room};

/// The most tokens that a place has after as many events as a word can have: 65,535 initial
/// ones and as many for each event.
pub const MAX_TOKENS: u64 = 65_536 * 65_535;

/// Starts a run by the definitions.
pub fn start_by_definitions(bundle: &[u8], tokens: &[u64]) -> Carried<usize> {
    let mut left = tokens.to_vec();
    let outcome = start_into(bundle, &mut left);
    Carried {
        outcome,
        tokens: left,
    }
}

fn start_into(bundle: &[u8], tokens: &mut [u64]) -> Outcome {
    let (_, places) = read_net(bundle)?;
    if tokens.len() < places.len() {
        return refusal(5, places.len());
    }
    for (j, place) in places.iter().enumerate() {
        tokens[j] = place.m as u64;
    }
    Ok(0)
}

/// Plays an event by the definitions.
pub fn step_by_definitions(
    bundle: &[u8],
    tokens: &[u64],
    kept: &[u8],
    number: usize,
    event: usize,
) -> Played {
    let mut tokens = tokens.to_vec();
    let mut kept = kept.to_vec();
    let outcome = step_into(bundle, &mut tokens, &mut kept, number, event);
    Played {
        outcome,
        tokens,
        kept,
    }
}

fn step_into(
    bundle: &[u8],
    tokens: &mut [u64],
    kept: &mut [u8],
    number: usize,
    event: usize,
) -> Outcome<Step> {
    if number >= MAX_WORD_EVENTS {
        return refusal(14, MAX_WORD_EVENTS);
    }
    let (n, places) = read_net(bundle)?;
    if tokens.len() < places.len() {
        return refusal(5, places.len());
    }
    for (j, &tokens) in tokens[..places.len()].iter().enumerate() {
        if tokens > MAX_TOKENS {
            return refusal(16, j);
        }
    }
    if event >= n {
        return refusal(15, number);
    }
    if kept.len() <= number {
        return refusal(3, number + 1);
    }
    if let Some((place, shortfall)) = lacking(&places, tokens, event) {
        return Ok(Step::Stopped {
            position: number,
            place,
            shortfall,
        });
    }
    for (j, place) in places.iter().enumerate() {
        let moved = i128::from(tokens[j]) - place.outs[event] + place.ins[event];
        tokens[j] = u64::try_from(moved).expect("no overflow");
    }
    kept[number] = event as u8;
    Ok(Step::Moved(number + 1))
}

/// The lowest place that has too few tokens for an event, and how many it lacks.
fn lacking(places: &[Place], tokens: &[u64], event: usize) -> Option<(usize, usize)> {
    let missing = |j: usize| places[j].outs[event] - i128::from(tokens[j]);
    let place = (0..places.len()).find(|&j| missing(j) > 0)?;
    Some((place, missing(place) as usize))
}

/// Replaces a net by the definitions: the old one, then the new one.
pub fn replace_by_definitions(
    nets: [&[u8]; 2],
    tokens: &[u64],
    kept: &[u8],
    number: usize,
) -> Carried<()> {
    let mut tokens = tokens.to_vec();
    let outcome = replace_into(nets, &mut tokens, kept, number);
    Carried { outcome, tokens }
}

fn replace_into(
    [old, new]: [&[u8]; 2],
    tokens: &mut [u64],
    kept: &[u8],
    number: usize,
) -> Outcome<()> {
    if number > MAX_WORD_EVENTS {
        return refusal(14, MAX_WORD_EVENTS);
    }
    if kept.len() < number {
        return refusal(3, number);
    }
    let (old_n, _) = read_net(old)?;
    let (n, places) = read_net(new)?;
    if old_n != n {
        return refusal(22, 0);
    }
    if tokens.len() < places.len() {
        return refusal(5, places.len());
    }
    let events = &kept[..number];
    if let Some(position) = events.iter().position(|&event| usize::from(event) >= n) {
        return refusal(15, position);
    }
    if let Some(refused) = first_refused(n, &places, events) {
        return refusal(23, refused.position);
    }
    tokens[..places.len()].copy_from_slice(&marking(n, &places, events));
    Ok(())
}

/// Starts a run on both sides, and checks the answer and the tokens by the definitions.
pub fn start(run: &mut Run, bundle: &[u8], tokens: &[u64]) -> Carried<usize> {
    let started = run.start_tokens(bundle, tokens);
    let expected = start_by_definitions(bundle, tokens);
    assert_eq!(started, expected, "{bundle:?}, {tokens:?}, {run}");
    started
}

/// Plays an event on both sides, and checks the answer, the tokens and the buffer by the
/// definitions.
pub fn step(
    run: &mut Run,
    bundle: &[u8],
    tokens: &[u64],
    kept: &[u8],
    number: usize,
    event: usize,
) -> Played {
    let played = run.step_tokens(bundle, tokens, kept, number, event);
    let expected = step_by_definitions(bundle, tokens, kept, number, event);
    assert_eq!(played, expected, "{bundle:?}, {tokens:?}, {event}, {run}");
    played
}

/// Plays an event as [`step`] does, with a buffer of any bytes that has room for it.
pub fn step_with_room(
    run: &mut Run,
    bundle: &[u8],
    tokens: &[u64],
    number: usize,
    event: usize,
) -> Played {
    let kept = room(&mut run.rng, number);
    step(run, bundle, tokens, &kept, number, event)
}

/// Replaces a net on both sides, the old one by the new one, and checks the answer and the
/// tokens by the definitions.
pub fn replace(
    run: &mut Run,
    nets: [&[u8]; 2],
    tokens: &[u64],
    kept: &[u8],
    number: usize,
) -> Carried<()> {
    let replaced = run.replace_tokens(nets, tokens, kept, number);
    let expected = replace_by_definitions(nets, tokens, kept, number);
    assert_eq!(replaced, expected, "{nets:?}, {tokens:?}, {number}, {run}");
    replaced
}

/// Plays a word: a start, and then a step for each event, up to the first that is stopped or
/// refused, with a buffer that has room for them. The answer in screening's terms, and the
/// tokens that are left. All events that are permitted are kept, in order, and the rest of
/// the buffer stays.
pub fn play(run: &mut Run, bundle: &[u8], tokens: &[u64], word: &[u8]) -> Carried<Screened> {
    let started = start(run, bundle, tokens);
    let mut tokens = started.tokens;
    let noise = room(&mut run.rng, word.len());
    let mut kept = noise.clone();
    let mut number = match started.outcome {
        Ok(number) => number,
        Err(refused) => {
            return Carried {
                outcome: Err(refused),
                tokens,
            }
        }
    };
    for &event in word {
        let played = step(run, bundle, &tokens, &kept, number, event.into());
        (tokens, kept) = (played.tokens, played.kept);
        let before = number + usize::from(matches!(played.outcome, Ok(Step::Moved(_))));
        assert_eq!(
            (&kept[..before], &kept[before..]),
            (&word[..before], &noise[before..])
        );
        match screened(played.outcome) {
            (outcome, None) => return Carried { outcome, tokens },
            (_, Some(next)) => number = next,
        }
    }
    Carried {
        outcome: Ok(Screened::Permitted),
        tokens,
    }
}

/// The answer of a step in screening's terms, and the number of events where it goes on.
pub fn screened(step: Outcome<Step>) -> (Outcome<Screened>, Option<usize>) {
    match step {
        Ok(Step::Moved(number)) => (Ok(Screened::Permitted), Some(number)),
        Ok(Step::Stopped {
            position,
            place,
            shortfall,
        }) => {
            let stopped = Screened::Stopped {
                position,
                place,
                shortfall,
            };
            (Ok(stopped), None)
        }
        Err(refused) => (Err(refused), None),
    }
}

/// The tokens of places after a word that they permit: the marking, by the sums of counts.
pub fn marking(n: usize, places: &[Place], word: &[u8]) -> Vec<u64> {
    let counts = crate::logs::counts_below(n, word);
    let tokens = |place: &Place| u64::try_from(place.tokens(&counts)).expect("permitted");
    places.iter().map(tokens).collect()
}
