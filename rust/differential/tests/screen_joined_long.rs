//! Screening long words with two nets, of which each stops around the borders of the parts in
//! which a word is searched. The second is searched only up to where the first stops.

use differential::bundles::Place;
use differential::logs::MAX_EVENTS;
use differential::long_words::{draining, LongWord, BORDERS, COUNTS, FIRST, LENGTHS, SECOND_END};
use differential::run::{Outcome, Run};
use differential::screening::{net, stopped};
use reference::Screened;

/// Numbers of places of both nets.
const BOTH_COUNTS: [[usize; 2]; 18] = [
    [1, 1],
    [2, 1],
    [1, 2],
    [2, 3],
    [3, 2],
    [3, 3],
    [1, 8],
    [8, 1],
    [2, 9],
    [9, 2],
    [3, 8],
    [8, 9],
    [9, 8],
    [7, 17],
    [17, 3],
    [1, 64],
    [64, 1],
    [64, 64],
];

/// Screens a word with the nets of all these places on both sides, so many of them in the
/// first one, which has to be answered so.
fn check(run: &mut Run, places: &[Place], first: usize, word: &[u8], expected: Outcome<Screened>) {
    let n = places[0].ins.len();
    let (one, two) = places.split_at(first);
    let [one, two] = [one, two].map(|places| net(n, places.to_vec()).bytes());
    let outcome = run.screen_joined(&one, &two, word);
    let counts = [first, places.len() - first];
    let length = word.len();
    assert_eq!(
        outcome, expected,
        "{counts:?} places, {n} events, a word of {length}, {run}"
    );
}

/// Each net stops at a border or not at all, at a place that refuses only this step. The
/// earlier stop is the answer, and at the same position that of the first net.
#[test]
fn both_stop_around_borders() {
    let mut run = Run::start("both_stop_around_borders");
    let at: Vec<Option<usize>> = BORDERS.map(Some).into_iter().chain([None]).collect();
    for &first_at in &at {
        for &second_at in &at {
            // Two marks, or one for both.
            let mut marks: Vec<usize> = first_at.into_iter().chain(second_at).collect();
            marks.dedup();
            for [first, second] in BOTH_COUNTS {
                let n = run.rng.within(3..=MAX_EVENTS);
                let word = LongWord::new(n, SECOND_END + 300, &marks);
                let mut places = word.places(first + second);
                let one = run.rng.below(first);
                let two = first + run.rng.below(second);
                if first_at.is_some() {
                    word.take_more(&mut places[one], 0, 5);
                }
                if second_at.is_some() {
                    word.take_more(&mut places[two], marks.len() - 1, 9);
                }
                let first_stop = first_at.map(|position| (position, one, 5));
                let second_stop = second_at.map(|position| (position, two, 9));
                // The lower place is in the first net.
                let earlier = first_stop.into_iter().chain(second_stop).min();
                let expected = match earlier {
                    None => Ok(Screened::Permitted),
                    Some((position, place, shortfall)) => stopped(position, place, shortfall),
                };
                check(&mut run, &places, first, &word.events, expected);
                run.note(match earlier {
                    None => "neither stops",
                    Some((_, place, _)) if place < first => "the first net's stop",
                    Some(_) => "the second net's stop",
                });
            }
        }
    }
    let each = BOTH_COUNTS.len();
    run.finish_with_classes(
        &[],
        &[
            ("neither stops", each),
            ("the first net's stop", 189 * each),
            ("the second net's stop", 171 * each),
        ],
    );
}

/// The same with words that end at a border, and places that refuse every step behind: a
/// stop of the first net hides none of the second before it, and all behind it.
#[test]
fn words_that_end_at_borders() {
    let mut run = Run::start("words_that_end_at_borders");
    for length in LENGTHS {
        let ends = [
            1,
            256,
            FIRST - 1,
            FIRST,
            FIRST + 1,
            SECOND_END - 1,
            SECOND_END,
            length - 2,
            length - 1,
            length,
        ];
        let at: Vec<usize> = ends.into_iter().filter(|&at| at <= length).collect();
        for &first_at in &at {
            for &second_at in &at {
                let [first, second] = run.rng.choose(&BOTH_COUNTS);
                let n = run.rng.within(1..=MAX_EVENTS);
                let word = LongWord::new(n, length, &[]);
                let mut places = word.places(first + second);
                let one = run.rng.below(first);
                let two = first + run.rng.below(second);
                places[one] = draining(n, first_at);
                places[two] = draining(n, second_at);
                let expected = match first_at.min(second_at) {
                    end if end == length => Ok(Screened::Permitted),
                    at if at == first_at => stopped(at, one, 1),
                    at => stopped(at, two, 1),
                };
                check(&mut run, &places, first, &word.events, expected);
            }
        }
    }
    run.finish_with_classes(&[], &[("permitted", LENGTHS.len()), ("stopped", 1_000)]);
}

/// The first net stops early or late, and every place of the second in turn stops right
/// before it, with it, and right behind it.
#[test]
fn every_place_of_the_second() {
    let mut run = Run::start("every_place_of_the_second");
    for first_at in [1, 255, 256, 257, FIRST - 1, FIRST, FIRST + 1, SECOND_END] {
        for second in [1, 2].into_iter().chain(COUNTS) {
            for place in 0..second {
                for second_at in first_at - 1..=first_at + 1 {
                    let first = run.rng.choose(&[1, 2, 3, 8, 9]);
                    let n = run.rng.within(1..=MAX_EVENTS);
                    let word = LongWord::new(n, first_at + FIRST, &[]);
                    let mut places = word.places(first + second);
                    let one = run.rng.below(first);
                    let two = first + place;
                    places[one] = draining(n, first_at);
                    places[two] = draining(n, second_at);
                    let expected = match second_at < first_at {
                        true => stopped(second_at, two, 1),
                        false => stopped(first_at, one, 1),
                    };
                    check(&mut run, &places, first, &word.events, expected);
                }
            }
        }
    }
    let all = 3 + COUNTS.iter().sum::<usize>();
    run.finish_with_classes(&[], &[("stopped", 8 * 3 * all)]);
}

/// A net without places before or behind another: the answer is that of the other alone.
#[test]
fn no_places_on_one_side() {
    let mut run = Run::start("no_places_on_one_side");
    for length in LENGTHS {
        for count in COUNTS {
            let position = run.rng.below(length);
            let n = run.rng.within(2..=MAX_EVENTS);
            let word = LongWord::new(n, length, &[position]);
            let place = run.rng.below(count);
            let mut places = word.places(count);
            for first in [0, count] {
                check(
                    &mut run,
                    &places,
                    first,
                    &word.events,
                    Ok(Screened::Permitted),
                );
            }
            word.take_more(&mut places[place], 0, 300);
            let expected = stopped(position, place, 300);
            for first in [0, count] {
                check(&mut run, &places, first, &word.events, expected);
            }
        }
    }
    run.finish_with_classes(&[], &[("permitted", 324), ("stopped", 324)]);
}
