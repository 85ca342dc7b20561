//! Screening with two nets: bundles with a fault up to their last place, in front, behind
//! or on both sides, and words with events that are not there.

use differential::bundle_faults::{altered, refusal_of_cut};
use differential::bundles::{Bundle, SAMPLE_A, SAMPLE_E};
use differential::logs::random_word;
use differential::run::{refusal, Outcome, Run};
use differential::screening::{screen_joined, stopped, two_nets, Kind, ONE_FOLLOWS};
use reference::Screened;

/// Two bundles over the same events, of up to so many bytes each, and a word of any kind;
/// one word in five has an event that is not there.
fn small_nets(run: &mut Run, most: usize) -> (Bundle, Bundle, Vec<u8>) {
    loop {
        let (first, second, word) = two_nets(&mut run.rng);
        if first.bytes().len() > most || second.bytes().len() > most {
            continue;
        }
        let kind = run.rng.choose(&Kind::ALL);
        let other = kind.word(&mut run.rng, &first);
        let mut word = if run.rng.below(2) == 0 { word } else { other };
        if run.rng.below(5) == 0 {
            let position = run.rng.within(0..=word.len());
            word.insert(position, run.rng.within(first.n..=255) as u8);
        }
        return (first, second, word);
    }
}

/// Every beginning of either bundle, beside the whole other one: as long as a byte of the
/// last place is missing, that bundle is refused, with an offset of its own.
#[test]
fn every_beginning() {
    let mut run = Run::start("screen_joined_faults::every_beginning");
    for _ in 0..run.cases(40) {
        let (first, second, word) = small_nets(&mut run, 400);
        let layouts = [first.layout(), second.layout()];
        let whole = layouts.each_ref().map(|layout| layout.bytes.as_slice());
        let uncut = screen_joined(&mut run, whole[0], whole[1], &word);
        for side in 0..2 {
            for length in 0..=whole[side].len() {
                let mut cut = whole;
                cut[side] = &whole[side][..length];
                let expected: Outcome<Screened> = if length == 0 {
                    refusal(4, 0)
                } else if length < layouts[side].places_end {
                    run.note(["the first is cut", "the second is cut"][side]);
                    Err(refusal_of_cut(&layouts[side], length))
                } else {
                    uncut
                };
                let outcome = screen_joined(&mut run, cut[0], cut[1], &word);
                assert_eq!(outcome, expected, "{length} of side {side}, {run}");
            }
        }
    }
    run.finish_with_classes(
        &[(0, 50), (4, 2 * 40), (6, 3_000)],
        &[("the first is cut", 1_000), ("the second is cut", 1_000)],
    );
}

/// Both bundles are cut: the first one's offset is named.
#[test]
fn both_cut() {
    let mut run = Run::start("both_cut");
    for _ in 0..run.cases(500) {
        let (first, second, word) = small_nets(&mut run, 2_000);
        let layouts = [first.layout(), second.layout()];
        let lengths = layouts
            .each_ref()
            .map(|layout| run.rng.within(1..=layout.places_end - 1));
        let [first, second] = [0, 1].map(|side| &layouts[side].bytes[..lengths[side]]);
        let outcome = screen_joined(&mut run, first, second, &word);
        let refused = refusal_of_cut(&layouts[0], lengths[0]);
        assert_eq!(outcome, Err(refused), "{run}");
        if refused != refusal_of_cut(&layouts[1], lengths[1]) {
            run.note("the second's offset is another");
        }
    }
    run.finish_with_classes(&[(6, 500)], &[("the second's offset is another", 300)]);
}

/// Every value of every byte of a bundle, in front of another one and behind it.
fn every_value(run: &mut Run, bundle: &[u8], other: &[u8], words: &[&[u8]]) {
    for position in 0..bundle.len() {
        for value in 0..=255 {
            let mut bytes = bundle.to_vec();
            bytes[position] = value;
            for word in words {
                screen_joined(run, &bytes, other, word).ok();
                screen_joined(run, other, &bytes, word).ok();
            }
        }
    }
}

#[test]
fn every_byte() {
    let mut run = Run::start("screen_joined_faults::every_byte");
    let words: [&[u8]; 3] = [&[0, 1], &[1, 0], &[0, 2]];
    every_value(&mut run, &SAMPLE_A, &ONE_FOLLOWS, &words);
    every_value(&mut run, &ONE_FOLLOWS, &SAMPLE_A, &words);
    every_value(&mut run, &SAMPLE_E, &SAMPLE_E, &[&[], &[0], &[1]]);
    run.finish_with_classes(
        &[(6, 2_000), (7, 10_000), (15, 10_000), (19, 24)],
        &[("permitted", 10_000), ("stopped", 10_000)],
    );
}

/// Up to four changes at once in the first bundle, in the second or in both. The
/// definitions say which fault comes first.
#[test]
fn several_faults() {
    let mut run = Run::start("screen_joined_faults::several_faults");
    for _ in 0..run.cases(600) {
        let (first, second, word) = small_nets(&mut run, 2_000);
        for _ in 0..4 {
            let damaged = [&first, &second].map(|bundle| altered(&mut run.rng, bundle));
            let sound = [first.bytes(), second.bytes()];
            for (first, second) in [
                (&damaged[0], &sound[1]),
                (&sound[0], &damaged[1]),
                (&damaged[0], &damaged[1]),
            ] {
                screen_joined(&mut run, first, second, &word).ok();
            }
        }
    }
    run.finish_with_classes(
        &[(6, 700), (7, 700), (15, 300), (19, 20)],
        &[("permitted", 200), ("stopped", 800)],
    );
}

/// A fault that only the judge sees is none here: rows and certificates of neither bundle
/// are looked at.
#[test]
fn more_rows_than_the_judge_counts() {
    let mut run = Run::start("more_rows_than_the_judge_counts");
    let long_word = [vec![255], vec![0; 255]].concat();
    // A word of 255 events 0, which needs all rows, and the word 1; then a place with two
    // tokens, of which event 1 takes one.
    let place = [1, 2, 0, 0, 0, 0, 0, 0, 0, 1, 0];
    let rows = [[2, 2].as_slice(), &long_word, &[1, 1], &place].concat();
    for (first, second, place) in [
        (rows.as_slice(), ONE_FOLLOWS.as_slice(), 0),
        (&ONE_FOLLOWS, &rows, 1),
    ] {
        let outcome = screen_joined(&mut run, first, second, &[0, 0, 0, 1, 1, 1]);
        assert_eq!(outcome, stopped(5, place, 1), "{run}");
        let outcome = screen_joined(&mut run, first, second, &[0, 1, 0, 1]);
        assert_eq!(outcome, Ok(Screened::Permitted), "{run}");
    }
    run.finish(&[(0, 4)]);
}

/// Small random bytes in place of the bundles.
#[test]
fn noise() {
    let mut run = Run::start("screen_joined_faults::noise");
    for _ in 0..run.cases(8_000) {
        let largest = run.rng.choose(&[1, 1, 2, 3, 12, 255]);
        let mut bytes = || {
            let length = run.rng.within(0..=100);
            let bytes = (0..length).map(|_| run.rng.within(0..=largest) as u8);
            bytes.collect::<Vec<u8>>()
        };
        let (first, second) = (bytes(), bytes());
        let word = random_word(&mut run.rng, largest.min(3), 0..=6);
        screen_joined(&mut run, &first, &second, &word).ok();
    }
    run.finish_with_classes(
        &[(4, 50), (6, 200), (7, 3_000), (15, 10), (19, 50)],
        &[("permitted", 200), ("stopped", 50)],
    );
}
