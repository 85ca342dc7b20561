//! The safe calls for screening: results and errors, against the reference.

use differential::bundle_faults::altered;
use differential::bundles::{five_long_words, Bundle, Field, SAMPLE_A};
use differential::nets::small_certified;
use differential::run::{Outcome, Run};
use differential::screening::{any_net, net, two_nets, Kind, ONE_FOLLOWS};
use hovmekhar::{Refusal, Screened, MAX_BUNDLE_SIZE, MAX_EVENTS, MAX_WORD_EVENTS};
use std::error::Error;

/// A result of the safe call in the reference's terms.
fn outcome(result: Result<Screened, Refusal>) -> Outcome<reference::Screened> {
    match result {
        Ok(Screened::Permitted) => Ok(reference::Screened::Permitted),
        Ok(Screened::Stopped {
            position,
            place,
            shortfall,
        }) => Ok(reference::Screened::Stopped {
            position,
            place,
            shortfall,
        }),
        Err(Refusal { number, spot }) => Err(reference::Refusal { number, spot }),
    }
}

/// A word of any kind for a bundle; some are too long or have an event that is not there.
fn any_word(run: &mut Run, bundle: &Bundle) -> Vec<u8> {
    let kind = run.rng.choose(&Kind::ALL);
    let mut word = kind.word(&mut run.rng, bundle);
    match run.rng.below(20) {
        0 => word.resize(MAX_WORD_EVENTS + 1, 0),
        1 | 2 => word.push(run.rng.within(bundle.n..=255) as u8),
        _ => (),
    }
    word
}

/// The bytes of a bundle, or others in place of them.
fn any_bytes(run: &mut Run, bundle: &Bundle) -> Vec<u8> {
    match run.rng.below(10) {
        0 => {
            let length = run.rng.choose(&[0, MAX_BUNDLE_SIZE + 1]);
            run.rng.bytes(length)
        }
        1..=3 => altered(&mut run.rng, bundle),
        _ => bundle.bytes(),
    }
}

#[test]
fn screen_agrees() {
    let mut run = Run::start("screen_agrees");
    for _ in 0..run.cases(2_000) {
        let bundle = match run.rng.below(2) {
            0 => small_certified(&mut run.rng).bundle,
            _ => any_net(&mut run.rng).0,
        };
        let word = any_word(&mut run, &bundle);
        let bundle = any_bytes(&mut run, &bundle);
        let screened = run.screen(&bundle, &word);
        let result = hovmekhar::screen(&bundle, &word);
        assert_eq!(outcome(result), screened, "{run}");
    }
    run.finish_with_classes(
        &[(4, 50), (6, 20), (7, 50), (14, 40), (15, 50)],
        &[("permitted", 300), ("stopped", 300)],
    );
}

#[test]
fn screen_joined_agrees() {
    let mut run = Run::start("screen_joined_agrees");
    for _ in 0..run.cases(2_000) {
        let (first, mut second, _) = two_nets(&mut run.rng);
        if run.rng.below(20) == 0 {
            second = net(first.n % MAX_EVENTS + 1, Vec::new());
        }
        let word = any_word(&mut run, &first);
        let bundles = [first, second].map(|bundle| any_bytes(&mut run, &bundle));
        let screened = run.screen_joined(&bundles[0], &bundles[1], &word);
        let result = hovmekhar::screen_joined(&bundles[0], &bundles[1], &word);
        assert_eq!(outcome(result), screened, "{run}");
    }
    run.finish_with_classes(
        &[(4, 100), (6, 50), (7, 50), (14, 40), (15, 30), (19, 20)],
        &[("permitted", 200), ("stopped", 200)],
    );
}

/// Samples B, C and D, and the largest shortfall.
#[test]
fn samples() {
    let takes_most = [1, 0, 1, 0, 0, 0, 0, 255, 255];
    for (bundle, word, expected) in [
        (SAMPLE_A.as_slice(), [0, 1].as_slice(), Screened::Permitted),
        (&SAMPLE_A, &[1, 0], stopped(1, 0, 1)),
        (&SAMPLE_A, &[0, 0, 0], stopped(2, 1, 1)),
        (&takes_most, &[0], stopped(0, 0, 65_535)),
    ] {
        assert_eq!(hovmekhar::screen(bundle, word), Ok(expected), "{word:?}");
    }
    // Behind sample A, and in front of it.
    for (word, expected) in [
        ([0, 1].as_slice(), [Screened::Permitted; 2]),
        (&[1], [stopped(0, 2, 1), stopped(0, 0, 1)]),
        (&[0, 0, 0], [stopped(2, 1, 1), stopped(2, 2, 1)]),
    ] {
        let behind = hovmekhar::screen_joined(&SAMPLE_A, &ONE_FOLLOWS, word);
        let in_front = hovmekhar::screen_joined(&ONE_FOLLOWS, &SAMPLE_A, word);
        assert_eq!([behind, in_front], expected.map(Ok), "{word:?}");
    }
}

fn stopped(position: usize, place: usize, shortfall: usize) -> Screened {
    Screened::Stopped {
        position,
        place,
        shortfall,
    }
}

/// The word may be a part of the bundle, as a word of its log is, with or without
/// the byte behind it.
#[test]
fn word_in_the_bundle() {
    let mut run = Run::start("word_in_the_bundle");
    for _ in 0..run.cases(200) {
        let certified = small_certified(&mut run.rng).bundle;
        let layout = certified.layout();
        let bundle = &layout.bytes;
        for length in layout.all(Field::Length) {
            let start = length.end + usize::from(certified.is_new());
            let end = start + usize::from(bundle[length.start]);
            for word in [&bundle[start..end], &bundle[start..=end]] {
                let apart = run.screen(bundle, word);
                let together = hovmekhar::screen(bundle, word);
                assert_eq!(outcome(together), apart, "{run}");
            }
        }
    }
    run.finish_with_classes(&[(15, 60)], &[("permitted", 400), ("stopped", 100)]);
}

/// Each refusal that screening can give is an error with its number, its spot and a
/// sentence with both.
#[test]
fn refusals_are_errors() {
    let five_words = five_long_words(1);
    let too_long_bundle = [SAMPLE_A.as_slice(), &[0; MAX_BUNDLE_SIZE]].concat();
    let too_long_word = [0; MAX_WORD_EVENTS + 1];
    for (bundle, word, number, spot) in [
        (
            SAMPLE_A.as_slice(),
            too_long_word.as_slice(),
            Refusal::WORD_LENGTH,
            65_535,
        ),
        (&[], &too_long_word, Refusal::WORD_LENGTH, 65_535),
        (&[], &[0], Refusal::BUNDLE_LENGTH, 0),
        (&too_long_bundle, &[0], Refusal::BUNDLE_LENGTH, 0),
        (&SAMPLE_A[..28], &[0], Refusal::BUNDLE_END, 27),
        (&[13, 0, 0], &[0], Refusal::VALUE, 0),
        (&five_words, &[0], Refusal::EVENTS, 2 + 4 * 256),
        (&SAMPLE_A, &[0, 1, 2], Refusal::WORD_EVENT, 2),
    ] {
        let expected = Refusal { number, spot };
        expect_error(hovmekhar::screen(bundle, word), expected);
        // Joined to a net of no places it is refused just so.
        let n = bundle.first().copied().unwrap_or(1).clamp(1, 12);
        let none = [n, 0, 0];
        expect_error(hovmekhar::screen_joined(bundle, &none, word), expected);
        expect_error(hovmekhar::screen_joined(&none, bundle, word), expected);
    }
    let counts = Refusal {
        number: Refusal::EVENT_COUNTS,
        spot: 0,
    };
    expect_error(
        hovmekhar::screen_joined(&SAMPLE_A, &[3, 0, 0], &[0]),
        counts,
    );
}

fn expect_error(result: Result<Screened, Refusal>, expected: Refusal) {
    let refusal = result.expect_err("each of these is refused");
    assert_eq!(refusal, expected);
    let Refusal { number, spot } = expected;
    let error: Box<dyn Error> = Box::new(refusal);
    let sentence = error.to_string();
    assert!(
        sentence.starts_with(&format!("refusal {number}: ")),
        "{sentence}"
    );
    let one_spot = [
        Refusal::WORD_LENGTH,
        Refusal::BUNDLE_LENGTH,
        Refusal::EVENT_COUNTS,
    ];
    assert!(
        one_spot.contains(&number) || sentence.contains(&spot.to_string()),
        "{sentence}"
    );
}
