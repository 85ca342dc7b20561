//! Screening long words: places without tokens, with very many, and with just enough.

use differential::bundles::Place;
use differential::logs::MAX_EVENTS;
use differential::long_words::{check, draining, positions, LongWord, COUNTS, LENGTHS};
use differential::run::Run;
use differential::screening::{stopped, MAX_WORD_EVENTS};
use reference::Screened;

/// The largest number of two bytes.
const LARGEST: u16 = 65_535;

/// Each event takes 0 or 65,535 tokens, all that there are, and puts what the next one
/// takes. One place has a token less, at first or behind a border, or a mark takes 65,535
/// where there is none.
#[test]
fn smallest_and_largest_numbers() {
    let mut run = Run::start("screen_long_tokens::smallest_and_largest_numbers");
    let permitted = Ok(Screened::Permitted);
    for length in LENGTHS {
        for n in 2..=MAX_EVENTS {
            let position = run.rng.choose(&positions(length - 1));
            let word = LongWord::new(n, length, &[position]);
            let count = run.rng.choose(&COUNTS);
            let place = run.rng.below(count);
            // Place p takes 65,535 tokens at the events whose bit it has.
            let places: Vec<Place> = (0..count)
                .map(|p| word.exact(|event| LARGEST * ((p >> (event % 6)) & 1) as u16))
                .collect();
            check(&mut run, &places, &word.events, permitted);

            let mut full = places.clone();
            full[place] = word.exact(|_| LARGEST);
            check(&mut run, &full, &word.events, permitted);
            full[place].m -= 1;
            check(&mut run, &full, &word.events, stopped(0, place, 1));
            full[place].m += 1;
            word.put_fewer(&mut full[place], 0, 1);
            let expected = stopped(position + 1, place, 1);
            check(&mut run, &full, &word.events, expected);

            let mut empty = places.clone();
            empty[place] = word.exact(|_| 0);
            check(&mut run, &empty, &word.events, permitted);
            word.take_more(&mut empty[place], 0, LARGEST);
            let expected = stopped(position, place, LARGEST.into());
            check(&mut run, &empty, &word.events, expected);
        }
    }
    run.finish_with_classes(&[], &[("permitted", 3 * 18 * 11), ("stopped", 3 * 18 * 11)]);
}

/// Places whose tokens grow with each event, up to 65,535 × 65,536, which is more than 31
/// bits hold and the most there can be. A place that has passed 31 bits never refuses again,
/// as so many tokens cannot be taken any more; one beside it lacks a token, also at the very
/// end.
#[test]
fn tokens_beyond_31_bits() {
    let mut run = Run::start("tokens_beyond_31_bits");
    for n in [1, 2, MAX_EVENTS] {
        let word = LongWord::new(n, MAX_WORD_EVENTS, &[]);
        let growing = |place: usize| Place {
            m: LARGEST,
            ins: vec![LARGEST; n],
            outs: vec![(place % 8) as u16; n],
        };
        for count in [3, 8, 9, 64] {
            let places: Vec<Place> = (0..count).map(growing).collect();
            check(&mut run, &places, &word.events, Ok(Screened::Permitted));
            // Behind 32,768 events there are more than 31 bits hold.
            for position in [255, 1_023, 32_767, 32_768, 32_769, 65_533, 65_534] {
                let place = run.rng.below(count);
                let mut places = places.clone();
                places[place] = draining(n, position);
                let expected = stopped(position, place, 1);
                check(&mut run, &places, &word.events, expected);
            }
        }
    }
    run.finish_with_classes(&[], &[("permitted", 12), ("stopped", 84)]);
}

/// Event 0 puts 65,535 tokens, event 1 takes as many: up as far as it can come down again
/// within the longest word. Then event 2 takes what is left, or one token more.
#[test]
fn up_and_down() {
    let mut run = Run::start("up_and_down");
    for ups in [128, 512, 513, 2_176, 2_560, 2_561, 32_766] {
        let word = [vec![0; ups], vec![1; ups], vec![2]].concat();
        for count in [3, 8, 17] {
            let number = run.rng.below(count);
            let place = |left, takes| Place {
                m: left,
                ins: vec![LARGEST, 0, 0],
                outs: vec![0, LARGEST, takes],
            };
            for left in [0, 1, 300, LARGEST - 1] {
                let mut places = vec![place(left, left); count];
                check(&mut run, &places, &word, Ok(Screened::Permitted));
                places[number] = place(left, left + 1);
                check(&mut run, &places, &word, stopped(2 * ups, number, 1));
            }
            // Each event 0 puts a token less, and the last event 1 lacks them all.
            let mut places = vec![place(0, 0); count];
            places[number].ins[0] -= 1;
            let expected = stopped(2 * ups - 1, number, ups);
            check(&mut run, &places, &word, expected);
        }
    }
    run.finish_with_classes(&[], &[("permitted", 84), ("stopped", 105)]);
}

/// Places without a token over a whole part, of which no event takes any. Then a mark takes
/// one; or it puts one, and the mark behind it takes this one, or two.
#[test]
fn places_without_tokens() {
    let mut run = Run::start("places_without_tokens");
    for length in LENGTHS {
        for position in positions(length - 1) {
            let n = run.rng.within(3..=MAX_EVENTS);
            let word = LongWord::new(n, length, &[position, position + 1]);
            let count = run.rng.choose(&COUNTS);
            let place = run.rng.below(count);
            let (one, other) = (n - 2, n - 1);
            let mut places = vec![word.exact(|_| 0); count];
            check(&mut run, &places, &word.events, Ok(Screened::Permitted));

            places[place].outs[one] = 1;
            let expected = stopped(position, place, 1);
            check(&mut run, &places, &word.events, expected);

            places[place].outs[one] = 0;
            places[place].ins[one] = 1;
            places[place].outs[other] = 1;
            check(&mut run, &places, &word.events, Ok(Screened::Permitted));

            places[place].outs[other] = 2;
            let expected = stopped(position + 1, place, 1);
            check(&mut run, &places, &word.events, expected);
        }
    }
    run.finish_with_classes(&[], &[("permitted", 400), ("stopped", 400)]);
}

/// All places have just what each event takes, and so permit the word; one has a token less
/// at first, which is missing at once, whatever the length. With that token, and each event
/// taking one more than the one before puts, it is missing at the second event.
#[test]
fn one_token_less() {
    let mut run = Run::start("one_token_less");
    for length in LENGTHS {
        for n in 1..=MAX_EVENTS {
            let word = LongWord::new(n, length, &[]);
            let count = run.rng.choose(&COUNTS);
            let place = run.rng.below(count);
            let mut places = word.places(count);
            check(&mut run, &places, &word.events, Ok(Screened::Permitted));
            places[place].m -= 1;
            check(&mut run, &places, &word.events, stopped(0, place, 1));
            places[place].m += 2;
            places[place].outs.iter_mut().for_each(|out| *out += 1);
            check(&mut run, &places, &word.events, stopped(1, place, 1));
        }
    }
    run.finish_with_classes(&[], &[("permitted", 18 * 12), ("stopped", 2 * 18 * 12)]);
}
