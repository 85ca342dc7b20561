//! Screening long words: stops around the borders of the parts in which a word is searched,
//! by each of the places that are searched at a time.

use differential::bundles::Place;
use differential::logs::MAX_EVENTS;
use differential::long_words::{
    check, draining, positions, LongWord, BORDERS, COUNTS, FIRST, LENGTHS, SECOND_END, THIRD_END,
};
use differential::run::{Outcome, Run};
use differential::screening::stopped;
use reference::Screened;

/// Stopped where this place lacks a token, unless the word ends there.
fn one_lacking(position: usize, length: usize, place: usize) -> Outcome<Screened> {
    if position == length {
        return Ok(Screened::Permitted);
    }
    stopped(position, place, 1)
}

/// One step lacks a token, and no other does: whoever leaves that step out permits the word.
/// Without this token taken the word is permitted.
#[test]
fn one_step_at_every_border() {
    let mut run = Run::start("one_step_at_every_border");
    for length in LENGTHS {
        for n in 2..=MAX_EVENTS {
            for position in positions(length) {
                let word = LongWord::new(n, length, &[position]);
                let count = run.rng.choose(&COUNTS);
                let place = run.rng.below(count);
                let mut places = word.places(count);
                check(&mut run, &places, &word.events, Ok(Screened::Permitted));

                word.take_more(&mut places[place], 0, 1);
                let expected = stopped(position, place, 1);
                check(&mut run, &places, &word.events, expected);
            }
        }
    }
    run.finish_with_classes(&[], &[("permitted", 2_500), ("stopped", 2_500)]);
}

/// An event puts a token less than the next one needs: also the last event of a part, and
/// the last one of the word, behind which nothing is missing.
#[test]
fn tokens_put_before_every_border() {
    let mut run = Run::start("tokens_put_before_every_border");
    for length in LENGTHS {
        for n in 2..=MAX_EVENTS {
            for position in positions(length) {
                let word = LongWord::new(n, length, &[position]);
                let count = run.rng.choose(&COUNTS);
                let place = run.rng.below(count);
                let mut places = word.places(count);
                word.put_fewer(&mut places[place], 0, 1);
                let expected = one_lacking(position + 1, length, place);
                check(&mut run, &places, &word.events, expected);
            }
        }
    }
    run.finish_with_classes(&[], &[("permitted", 18 * 11), ("stopped", 2_000)]);
}

/// The tokens become fewer with each event, so each one counts. Also over a single event,
/// and up to a position that the word does not have.
#[test]
fn every_event_counts() {
    let mut run = Run::start("every_event_counts");
    for length in LENGTHS {
        for n in 1..=MAX_EVENTS {
            let word = LongWord::new(n, length, &[]);
            for position in positions(length).into_iter().chain([length]) {
                let count = run.rng.choose(&COUNTS);
                let place = run.rng.below(count);
                let mut places = word.places(count);
                places[place] = draining(n, position);
                let expected = one_lacking(position, length, place);
                check(&mut run, &places, &word.events, expected);
            }
        }
    }
    run.finish_with_classes(&[], &[("permitted", 18 * 12), ("stopped", 2_500)]);
}

/// Every place of a net refuses, at every border, each lacking another number of tokens.
#[test]
fn every_place() {
    let mut run = Run::start("every_place");
    for position in BORDERS {
        for behind in [1, 2, 5_000] {
            let length = (position + behind).max(FIRST);
            let n = run.rng.within(2..=MAX_EVENTS);
            let word = LongWord::new(n, length, &[position]);
            for count in COUNTS {
                for place in 0..count {
                    let mut places = word.places(count);
                    let shortfall = place + 1;
                    word.take_more(&mut places[place], 0, shortfall as u16);
                    let expected = stopped(position, place, shortfall);
                    check(&mut run, &places, &word.events, expected);
                }
            }
        }
    }
    let all: usize = COUNTS.iter().sum();
    run.finish_with_classes(&[], &[("stopped", BORDERS.len() * 3 * all)]);
}

/// Two places of the same eight or of different ones refuse, in the same part or in
/// different ones: the earlier position is named, whichever place it is, and of two at the
/// same position the lower place.
#[test]
fn two_places() {
    let mut run = Run::start("two_places");
    let at = [
        0,
        255,
        256,
        FIRST - 1,
        FIRST,
        FIRST + 100,
        4_351,
        4_352,
        SECOND_END - 1,
        SECOND_END,
        SECOND_END + 1,
        THIRD_END - 1,
        THIRD_END,
    ];
    let pairs = [
        (0, 1),
        (0, 7),
        (3, 4),
        (6, 7),
        (0, 8),
        (7, 8),
        (7, 15),
        (8, 15),
        (15, 16),
        (2, 63),
        (55, 56),
        (56, 63),
        (62, 63),
    ];
    for lower_at in at {
        for higher_at in at {
            let same = lower_at == higher_at;
            let marks = [lower_at, higher_at];
            let marks = if same { &marks[..1] } else { &marks };
            let n = run.rng.within(3..=MAX_EVENTS);
            let word = LongWord::new(n, THIRD_END + 100, marks);
            for (lower, higher) in pairs {
                let above = COUNTS.iter().filter(|&&count| count > higher);
                let count = *above.min().expect("at most 64 places");
                let mut places = word.places(count);
                word.take_more(&mut places[lower], 0, 5);
                word.take_more(&mut places[higher], marks.len() - 1, 9);
                let expected = match lower_at <= higher_at {
                    true => stopped(lower_at, lower, 5),
                    false => stopped(higher_at, higher, 9),
                };
                check(&mut run, &places, &word.events, expected);
                run.note(match (lower / 8 == higher / 8, lower_at.cmp(&higher_at)) {
                    (true, std::cmp::Ordering::Equal) => "one group, one position",
                    (true, _) => "one group, two positions",
                    (false, std::cmp::Ordering::Equal) => "two groups, one position",
                    (false, _) => "two groups, two positions",
                });
            }
        }
    }
    run.finish_with_classes(
        &[],
        &[
            ("one group, one position", 7 * 13),
            ("one group, two positions", 7 * 13 * 12),
            ("two groups, one position", 6 * 13),
            ("two groups, two positions", 6 * 13 * 12),
        ],
    );
}

/// All places refuse, each at another position: the one at the first of them is named, in
/// whichever order they are. And all at the same position: the lowest.
#[test]
fn all_places() {
    let mut run = Run::start("all_places");
    for first in BORDERS {
        for count in COUNTS {
            let n = run.rng.within(1..=MAX_EVENTS);
            let word = LongWord::new(n, THIRD_END + 300, &[]);
            let later: Vec<usize> = (0..count).map(|place| first + 67 * place).collect();
            for at in [
                later.clone(),
                later.iter().rev().copied().collect(),
                run.rng.shuffled(&later),
                vec![first; count],
            ] {
                let places: Vec<Place> = at.iter().map(|&at| draining(n, at)).collect();
                let place = at.iter().position(|&at| at == first);
                let expected = stopped(first, place.expect("one of them"), 1);
                check(&mut run, &places, &word.events, expected);
            }
        }
    }
    run.finish_with_classes(&[], &[("stopped", BORDERS.len() * COUNTS.len() * 4)]);
}
