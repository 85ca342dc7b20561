//! Replacing a net behind many events, up to 65,535: stops around the borders of the parts in
//! which a word is searched, and the tokens behind words that are permitted.

use differential::bundles::{Bundle, Place, MAX_PLACES};
use differential::engine::{any_tokens, marking, step, MAX_TOKENS};
use differential::logs::{random_word, MAX_EVENTS};
use differential::long_words::{
    draining, positions, tight_net, LongWord, BORDERS, COUNTS, FIRST, LENGTHS,
};
use differential::places;
use differential::run::{refusal, Carried, Outcome, Run};
use differential::sales::LARGEST_NEW;
use differential::screening::{any_net, net, MAX_WORD_EVENTS};
use hovmekhar::ffi;
use reference::Screened;

/// Replaces a net without places by the net of these, behind these events, which has to be
/// answered so; where it succeeds the tokens are the marking.
fn check(run: &mut Run, places: &[Place], word: &[u8], expected: Outcome<()>) -> Carried<()> {
    let n = places[0].ins.len();
    let [old, new] = [Vec::new(), places.to_vec()].map(|places| net(n, places).bytes());
    let noise = any_tokens(&mut run.rng, places.len() + 3);
    let replaced = run.replace_tokens([&old, &new], &noise, word, word.len());
    let (count, length) = (places.len(), word.len());
    let place = format!("{count} places, {n} events, {length} before, {run}");
    assert_eq!(replaced.outcome, expected, "{place}");
    let mut left = noise;
    if expected.is_ok() {
        let places: Vec<places::Place> = places.iter().map(places::Place::from).collect();
        left[..count].copy_from_slice(&marking(n, &places, word));
    }
    assert_eq!(replaced.tokens, left, "{place}");
    replaced
}

/// One step lacks a token, and no other does. Without this token taken the net takes the
/// place of the old one.
#[test]
fn one_step_at_every_border() {
    let mut run = Run::start("replace_long::one_step_at_every_border");
    for length in LENGTHS {
        for position in positions(length) {
            let n = run.rng.within(2..=MAX_EVENTS);
            let word = LongWord::new(n, length, &[position]);
            let count = run.rng.choose(&COUNTS);
            let place = run.rng.below(count);
            let mut places = word.places(count);
            check(&mut run, &places, &word.events, Ok(()));
            word.take_more(&mut places[place], 0, 1);
            check(&mut run, &places, &word.events, refusal(23, position));
        }
    }
    let all: usize = LENGTHS.iter().map(|&length| positions(length).len()).sum();
    run.finish_with_classes(&[(0, all), (23, all)], &[("replaced", all)]);
}

/// The tokens become fewer with each event, so each one counts; up to a position that the run
/// does not have yet.
#[test]
fn every_event_counts() {
    let mut run = Run::start("replace_long::every_event_counts");
    for length in LENGTHS {
        for position in positions(length).into_iter().chain([length]) {
            let n = run.rng.within(1..=MAX_EVENTS);
            let word = LongWord::new(n, length, &[]);
            let count = run.rng.choose(&COUNTS);
            let place = run.rng.below(count);
            let mut places = word.places(count);
            places[place] = draining(n, position);
            let expected = match position {
                end if end == length => Ok(()),
                _ => refusal(23, position),
            };
            check(&mut run, &places, &word.events, expected);
        }
    }
    let all: usize = LENGTHS.iter().map(|&length| positions(length).len()).sum();
    run.finish(&[(0, LENGTHS.len()), (23, all)]);
}

/// Two places refuse: the earlier position is named, and no place or shortfall.
#[test]
fn the_earlier_of_two() {
    let mut run = Run::start("the_earlier_of_two");
    for lower_at in BORDERS {
        for higher_at in BORDERS {
            let n = run.rng.within(1..=MAX_EVENTS);
            let word = LongWord::new(n, lower_at.max(higher_at) + FIRST, &[]);
            let count = run.rng.choose(&COUNTS);
            let (lower, higher) = run.rng.two_below(count);
            let mut places = word.places(count);
            places[lower] = draining(n, lower_at);
            places[higher] = draining(n, higher_at);
            let expected = refusal(23, lower_at.min(higher_at));
            check(&mut run, &places, &word.events, expected);
        }
    }
    run.finish(&[(23, BORDERS.len() * BORDERS.len())]);
}

/// An event that is not there is named, wherever it is, before any stop.
#[test]
fn events_that_are_not_there() {
    let mut run = Run::start("events_that_are_not_there");
    for length in LENGTHS {
        for position in positions(length) {
            let n = run.rng.within(1..=MAX_EVENTS);
            let mut word = LongWord::new(n, length, &[]).events;
            let count = run.rng.choose(&COUNTS);
            let stopping = vec![draining(n, 0); count];
            for event in [n as u8, 255] {
                word[position] = event;
                check(&mut run, &stopping, &word, refusal(15, position));
                // A further one behind it.
                let behind = run.rng.within(position..=length - 1);
                word[behind] = event;
                check(&mut run, &stopping, &word, refusal(15, position));
            }
        }
    }
    let all: usize = LENGTHS.iter().map(|&length| positions(length).len()).sum();
    run.finish(&[(15, 4 * all)]);
}

/// The tokens of a run on the net of a bundle, step by step up to the end of a word.
fn played(bundle: &[u8], tokens: &mut [u64], word: &[u8]) {
    let mut answer = [0; 4];
    let mut kept = vec![0; word.len()];
    assert_eq!(ffi::start(bundle, tokens, &mut answer), 0);
    for (number, &event) in word.iter().enumerate() {
        let returned = ffi::step(bundle, tokens, &mut kept, number, event.into(), &mut answer);
        assert_eq!((returned, answer[0]), (0, number as u64 + 1));
    }
}

/// Behind a long word, up to where the new net stops, a replacement leaves what a run on the
/// new net comes to step by step; behind one event more it is refused. A run of as many events
/// as there can be has no further one.
fn compare_with_run(run: &mut Run, new: &Bundle, word: &[u8]) {
    let bytes = new.bytes();
    let end = match run.screen(&bytes, word).expect("events that are there") {
        Screened::Permitted => word.len(),
        Screened::Stopped { position, .. } => position,
    };
    let old = net(new.n, Vec::new()).bytes();
    let noise = any_tokens(&mut run.rng, new.places.len() + 2);
    let replaced = run.replace_tokens([&old, &bytes], &noise, word, end);
    assert_eq!(replaced.outcome, Ok(()), "{run}");
    let mut left = noise.clone();
    played(&bytes, &mut left, &word[..end]);
    assert_eq!(replaced.tokens, left, "{run}");
    if end < word.len() {
        let replaced = run.replace_tokens([&old, &bytes], &noise, word, end + 1);
        assert_eq!(replaced.outcome, refusal(23, end), "{run}");
    }
    if end == MAX_WORD_EVENTS {
        let next = step(run, &bytes, &replaced.tokens, word, end, 0).outcome;
        assert_eq!(next, refusal(14, MAX_WORD_EVENTS), "{run}");
        run.note("as many events as a run can have");
    }
}

#[test]
fn long_runs() {
    let mut run = Run::start("replace_long::long_runs");
    for _ in 0..run.cases(4) {
        let (small, _) = any_net(&mut run.rng);
        let longest = random_word(&mut run.rng, small.n, MAX_WORD_EVENTS..=MAX_WORD_EVENTS);
        compare_with_run(&mut run, &small, &longest);
        // Nothing is taken out, so that all of it is permitted.
        let mut gaining = small.clone();
        for place in &mut gaining.places {
            place.outs.fill(0);
        }
        compare_with_run(&mut run, &gaining, &longest);
        let count = run.rng.choose(&COUNTS);
        let tight = tight_net(&mut run.rng, small.n, count, &longest);
        compare_with_run(&mut run, &tight, &longest);
    }
    let sales = LARGEST_NEW.certified(&mut run.rng).bundle;
    let many = [0, 1].repeat(MAX_WORD_EVENTS / 2);
    compare_with_run(&mut run, &sales, &many);
    run.finish_with_classes(
        &[(0, 13), (14, 4)],
        &[("replaced", 13), ("as many events as a run can have", 4)],
    );
}

/// 64 places that come to the largest number of tokens: as many initial ones, and as many with
/// each event, as two bytes can hold; and places that come from there to none.
#[test]
fn most_tokens() {
    let mut run = Run::start("replace_long::most_tokens");
    let gaining = Place {
        m: 65_535,
        ins: vec![65_535; MAX_EVENTS],
        outs: vec![0; MAX_EVENTS],
    };
    let word = random_word(&mut run.rng, MAX_EVENTS, MAX_WORD_EVENTS..=MAX_WORD_EVENTS);
    let places = vec![gaining; MAX_PLACES];
    let replaced = check(&mut run, &places, &word, Ok(()));
    assert_eq!(replaced.tokens[..MAX_PLACES], [MAX_TOKENS; MAX_PLACES]);
    // Half of the events put tokens there, and those behind take them and the initial ones.
    let draining = Place {
        m: 65_535,
        ins: vec![65_535, 0],
        outs: vec![0, 65_535],
    };
    let half = MAX_WORD_EVENTS / 2;
    let word = [vec![0; half], vec![1; half + 1]].concat();
    let places = vec![draining; MAX_PLACES];
    let replaced = check(&mut run, &places, &word, Ok(()));
    assert_eq!(replaced.tokens[..MAX_PLACES], [0; MAX_PLACES]);
    run.finish(&[(0, 2)]);
}
