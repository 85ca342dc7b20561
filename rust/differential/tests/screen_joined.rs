//! Screening with two nets: words on the joined nets of bundles that are accepted, and
//! of others.

use differential::bundles::{Bundle, SAMPLE_A, SAMPLE_E, SAMPLE_F};
use differential::files::MAX_BUNDLE_SIZE;
use differential::nets::{certified, small_log};
use differential::run::{Outcome, Run};
use differential::screening::{
    screen_by_definitions, screen_joined, stopped, two_nets, Kind, ONE_FOLLOWS,
};
use reference::Screened;

/// A bundle over two events with a place of eight tokens, of which event 1 takes five.
const TAKES_FIVE: [u8; 13] = [2, 0, 1, 8, 0, 0, 0, 0, 0, 0, 0, 5, 0];

/// Words on the two places of sample A, with another place behind or in front of them.
#[test]
fn samples() {
    let mut run = Run::start("screen_joined::samples");
    let permitted = Ok(Screened::Permitted);
    let a = SAMPLE_A.as_slice();
    for (other, word, a_first, a_second) in [
        (ONE_FOLLOWS, [0, 1].as_slice(), permitted, permitted),
        (ONE_FOLLOWS, &[], permitted, permitted),
        // Only the other net refuses, and then only sample A.
        (ONE_FOLLOWS, &[1], stopped(0, 2, 1), stopped(0, 0, 1)),
        (ONE_FOLLOWS, &[0, 0, 0], stopped(2, 1, 1), stopped(2, 2, 1)),
        // Sample A refuses the second event, and the other net the first.
        (ONE_FOLLOWS, &[1, 0], stopped(0, 2, 1), stopped(0, 0, 1)),
        // Both refuse the fourth event, with another shortfall each.
        (
            TAKES_FIVE,
            &[0, 0, 1, 1],
            stopped(3, 0, 1),
            stopped(3, 0, 2),
        ),
    ] {
        let outcome = screen_joined(&mut run, a, &other, word);
        assert_eq!(outcome, a_first, "{word:?}, {run}");
        let outcome = screen_joined(&mut run, &other, a, word);
        assert_eq!(outcome, a_second, "{word:?}, {run}");
    }
    // Sample F has no place.
    for (first, second, expected) in [
        (SAMPLE_F.as_slice(), SAMPLE_F.as_slice(), permitted),
        (&SAMPLE_E, &SAMPLE_F, stopped(0, 0, 1)),
        (&SAMPLE_F, &SAMPLE_E, stopped(0, 0, 1)),
        (&SAMPLE_E, &SAMPLE_E, stopped(0, 0, 1)),
    ] {
        let outcome = screen_joined(&mut run, first, second, &[0]);
        assert_eq!(outcome, expected, "{run}");
    }
    run.finish_with_classes(&[(0, 16)], &[("permitted", 5), ("stopped", 11)]);
}

/// How the nets stop a word, each by itself.
fn stops(first: &[u8], second: &[u8], word: &[u8]) -> &'static str {
    let position = |bundle| match screen_by_definitions(bundle, word) {
        Ok(Screened::Stopped { position, .. }) => Some(position),
        _ => None,
    };
    match (position(first), position(second)) {
        (None, None) => "permitted by both",
        (Some(_), None) => "stopped by the first alone",
        (None, Some(_)) => "stopped by the second alone",
        (Some(first), Some(second)) if first < second => "the first stops earlier",
        (Some(first), Some(second)) if first > second => "the second stops earlier",
        _ => "both refuse the same step",
    }
}

/// Words of every kind on two nets that need not fit their logs.
#[test]
fn any_words_on_two_nets() {
    let mut run = Run::start("any_words_on_two_nets");
    for _ in 0..run.cases(1_500) {
        let (first, second, word) = two_nets(&mut run.rng);
        let mut words = Kind::ALL
            .map(|kind| kind.word(&mut run.rng, &first))
            .to_vec();
        words.push(word);
        let (first, second) = (first.bytes(), second.bytes());
        for word in words {
            screen_joined(&mut run, &first, &second, &word).expect("sound bundles and events");
            run.note(stops(&first, &second, &word));
        }
    }
    run.finish_with_classes(
        &[(0, 12_000)],
        &[
            ("permitted by both", 2_500),
            ("stopped by the first alone", 1_000),
            ("stopped by the second alone", 1_000),
            ("the first stops earlier", 400),
            ("the second stops earlier", 400),
            ("both refuse the same step", 500),
        ],
    );
}

/// Two accepted bundles of one log: joined, they permit each word of it.
#[test]
fn accepted_bundles_of_one_log() {
    let mut run = Run::start("accepted_bundles_of_one_log");
    let mut pairs = 0;
    while pairs < run.cases(150) {
        let (n, words) = small_log(&mut run.rng);
        let mut bundle = || certified(&mut run.rng, n, words.clone()).map(|made| made.bundle);
        let (Some(first), Some(second)) = (bundle(), bundle()) else {
            continue;
        };
        pairs += 1;
        let bytes = [first.bytes(), second.bytes()];
        for word in &words {
            let outcome = screen_joined(&mut run, &bytes[0], &bytes[1], word);
            assert_eq!(outcome, Ok(Screened::Permitted), "{word:?}, {run}");
        }
        for _ in 0..5 {
            let word = Kind::Continued.word(&mut run.rng, &first);
            let outcome = screen_joined(&mut run, &bytes[0], &bytes[1], &word);
            assert!(outcome.is_ok(), "{word:?}, {run}");
        }
    }
    run.finish_with_classes(&[], &[("permitted", 500), ("stopped", 150)]);
}

/// A word with one more event than both nets permit, or one that ends just there.
#[test]
fn ends_of_words() {
    let mut run = Run::start("screen_joined::ends_of_words");
    for _ in 0..run.cases(1_000) {
        let (first, second, word) = two_nets(&mut run.rng);
        let (first, second) = (first.bytes(), second.bytes());
        let outcome = screen_joined(&mut run, &first, &second, &word);
        let Ok(Screened::Stopped { position, .. }) = outcome else {
            continue;
        };
        let before = screen_joined(&mut run, &first, &second, &word[..position]);
        assert_eq!(before, Ok(Screened::Permitted), "{run}");
        let there = screen_joined(&mut run, &first, &second, &word[..=position]);
        assert_eq!(there, outcome, "{run}");
        run.note("with and without the refused step");
    }
    run.finish_with_classes(&[], &[("with and without the refused step", 300)]);
}

/// A bundle up to its last place, with bytes behind it: the longest has so many.
fn with_noise(run: &mut Run, bundle: &Bundle) -> Vec<u8> {
    let layout = bundle.layout();
    let head = &layout.bytes[..layout.places_end];
    let left = MAX_BUNDLE_SIZE - head.len();
    let any = run.rng.within(1..=left);
    let behind = run.rng.choose(&[0, 1, 2, any, left]);
    [head, &run.rng.bytes(behind)].concat()
}

/// What follows the last place of either bundle is not looked at.
#[test]
fn bytes_behind_the_last_places() {
    let mut run = Run::start("bytes_behind_the_last_places");
    for _ in 0..run.cases(150) {
        let (first, second, word) = two_nets(&mut run.rng);
        let expected: Outcome<Screened> =
            screen_joined(&mut run, &first.bytes(), &second.bytes(), &word);
        for _ in 0..5 {
            let longer = [&first, &second].map(|bundle| with_noise(&mut run, bundle));
            let outcome = screen_joined(&mut run, &longer[0], &longer[1], &word);
            assert_eq!(outcome, expected, "{run}");
            for full in longer {
                if full.len() == MAX_BUNDLE_SIZE {
                    run.note("the longest bundle");
                }
            }
        }
    }
    run.finish_with_classes(
        &[(0, 6 * 150)],
        &[
            ("the longest bundle", 200),
            ("permitted", 50),
            ("stopped", 300),
        ],
    );
}
