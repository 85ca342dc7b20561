//! The safe calls of the carried engine: results and errors, against the reference.

use differential::bundle_faults::altered;
use differential::bundles::{five_long_words, Bundle, SAMPLE_A};
use differential::engine::{any_event, any_kept, any_number, any_tokens, lengths};
use differential::logs::random_word;
use differential::nets::small_certified;
use differential::run::{Outcome, Run};
use differential::screening::{any_net, two_nets, ONE_FOLLOWS};
use hovmekhar::{Refusal, Sale, Step, MAX_TOKENS, MAX_WORD_EVENTS};
use std::error::Error;

fn refused<R>(result: Result<R, Refusal>) -> Outcome<R> {
    result.map_err(|Refusal { number, spot }| reference::Refusal { number, spot })
}

/// A step's result in the reference's terms.
fn stepped(result: Result<Step, Refusal>) -> Outcome<reference::Step> {
    refused(result).map(|step| match step {
        Step::Moved(number) => reference::Step::Moved(number),
        Step::Stopped {
            position,
            place,
            shortfall,
        } => reference::Step::Stopped {
            position,
            place,
            shortfall,
        },
    })
}

/// The bytes of a bundle, sometimes with faults.
fn any_bytes(run: &mut Run, bundle: &Bundle) -> Vec<u8> {
    match run.rng.below(3) {
        0 => altered(&mut run.rng, bundle),
        _ => bundle.bytes(),
    }
}

#[test]
fn calls_agree() {
    let mut run = Run::start("engine_wrapper::calls_agree");
    for _ in 0..run.cases(1_500) {
        let bundle = match run.rng.below(2) {
            0 => small_certified(&mut run.rng).bundle,
            _ => any_net(&mut run.rng).0,
        };
        let bytes = any_bytes(&mut run, &bundle);
        let length = lengths(&mut run.rng, bundle.places.len())[run.rng.below(5)];
        let mut tokens = any_tokens(&mut run.rng, length);
        let started = run.start_tokens(&bytes, &tokens);
        let result = hovmekhar::start(&bytes, &mut tokens);
        assert_eq!(refused(result), started.outcome, "{run}");
        assert_eq!(tokens, started.tokens, "{run}");

        if run.rng.below(2) == 0 {
            tokens = any_tokens(&mut run.rng, length);
        }
        let number = any_number(&mut run.rng);
        let event = any_event(&mut run.rng, bundle.n);
        let mut kept = any_kept(&mut run.rng, number);
        let played = run.step_tokens(&bytes, &tokens, &kept, number, event);
        let result = hovmekhar::step(&bytes, &mut tokens, &mut kept, number, event);
        assert_eq!(stepped(result), played.outcome, "{run}");
        assert!((tokens, kept) == (played.tokens, played.kept), "{run}");
    }
    run.finish_with_classes(
        &[
            (3, 60),
            (5, 300),
            (6, 30),
            (7, 50),
            (14, 200),
            (15, 40),
            (16, 3),
        ],
        &[("permitted", 80), ("stopped", 25)],
    );
}

#[test]
fn replacements_agree() {
    let mut run = Run::start("engine_wrapper::replacements_agree");
    for _ in 0..run.cases(1_500) {
        let (old, new, word) = two_nets(&mut run.rng);
        let places = new.places.len();
        let nets = [old, new].map(|bundle| any_bytes(&mut run, &bundle));
        let [old, new] = nets.each_ref().map(Vec::as_slice);
        let length = lengths(&mut run.rng, places)[run.rng.below(5)];
        let mut tokens = any_tokens(&mut run.rng, length);
        let (kept, number) = match run.rng.below(3) {
            0 => {
                let number = any_number(&mut run.rng);
                let length = any_kept(&mut run.rng, number).len();
                (random_word(&mut run.rng, 12, length..=length), number)
            }
            _ => (word.clone(), run.rng.within(0..=word.len())),
        };
        let replaced = run.replace_tokens([old, new], &tokens, &kept, number);
        let result = hovmekhar::replace(old, new, &mut tokens, &kept, number);
        assert_eq!(refused(result), replaced.outcome, "{run}");
        assert_eq!(tokens, replaced.tokens, "{run}");
    }
    run.finish_with_classes(
        &[(3, 50), (5, 150), (6, 80), (7, 100), (14, 60), (23, 60)],
        &[("replaced", 200)],
    );
}

/// Each refusal is an error with its number, its spot and a sentence with both.
#[test]
fn refusals_are_errors() {
    let five_words = five_long_words(1);
    let a = SAMPLE_A.as_slice();
    for (bundle, number, spot) in [
        ([].as_slice(), Refusal::BUNDLE_LENGTH, 0),
        (&a[..28], Refusal::BUNDLE_END, 27),
        (&[13, 0, 0], Refusal::VALUE, 0),
        (&five_words, Refusal::EVENTS, 2 + 4 * 256),
    ] {
        let expected = Refusal { number, spot };
        let (mut tokens, mut kept) = ([0; 64], [0; 8]);
        expect_error(hovmekhar::start(bundle, &mut tokens), expected);
        let played = hovmekhar::step(bundle, &mut tokens, &mut kept, 0, 0);
        expect_error(played, expected);
        for [old, new] in [[bundle, a], [a, bundle]] {
            let replaced = hovmekhar::replace(old, new, &mut tokens, &kept, 0);
            expect_error(replaced, expected);
        }
        expect_error(Sale::start(bundle), expected);
        let mut sale = Sale::start(a).expect("sample A");
        expect_error(sale.replace(bundle), expected);
    }
}

/// The refusals of a start and a step that are not about the bundle.
#[test]
fn refused_steps_are_errors() {
    let a = SAMPLE_A.as_slice();
    let refusal = |number, spot| Refusal { number, spot };
    let step =
        |tokens: &mut [u64], number, event| hovmekhar::step(a, tokens, &mut [0; 8], number, event);
    let short = refusal(Refusal::NUMBERS_SHORT, 2);
    expect_error(hovmekhar::start(a, &mut [0]), short);
    expect_error(step(&mut [0], 7, 0), short);
    let large = refusal(Refusal::STATE_RANGE, 1);
    expect_error(step(&mut [0, MAX_TOKENS + 1], 7, 0), large);
    expect_error(step(&mut [1, 2], 7, 2), refusal(Refusal::WORD_EVENT, 7));
    let long = refusal(Refusal::WORD_LENGTH, MAX_WORD_EVENTS);
    expect_error(step(&mut [1, 2], MAX_WORD_EVENTS, 0), long);
    let full = refusal(Refusal::OUTPUT_SHORT, 9);
    expect_error(step(&mut [1, 2], 8, 0), full);
    let mut sale = Sale::start(a).expect("sample A");
    expect_error(sale.step(2), refusal(Refusal::WORD_EVENT, 0));
    let other = refusal(Refusal::REPLACED_EVENTS, 0);
    expect_error(sale.replace([3, 0, 0]), other);
}

/// The refusals of a replacement that are about its events and its tokens.
#[test]
fn refused_replacements_are_errors() {
    let (a, one) = (SAMPLE_A.as_slice(), ONE_FOLLOWS.as_slice());
    for (new, tokens_len, kept, number, expected) in [
        (
            a,
            64,
            [0, 1, 2].as_slice(),
            65_536,
            (Refusal::WORD_LENGTH, 65_535),
        ),
        (a, 64, &[0, 1, 2], 4, (Refusal::OUTPUT_SHORT, 4)),
        (&[3, 0, 0], 64, &[0, 1, 2], 3, (Refusal::REPLACED_EVENTS, 0)),
        (a, 1, &[0, 1, 2], 3, (Refusal::NUMBERS_SHORT, 2)),
        (a, 64, &[0, 1, 2], 3, (Refusal::WORD_EVENT, 2)),
        (one, 64, &[0, 1, 1], 3, (Refusal::RUN_STOPPED, 2)),
    ] {
        let mut tokens = vec![7; tokens_len];
        let replaced = hovmekhar::replace(a, new, &mut tokens, kept, number);
        let (number, spot) = expected;
        expect_error(replaced, Refusal { number, spot });
        assert_eq!(tokens, vec![7; tokens_len]);
    }
}

fn expect_error<R>(result: Result<R, Refusal>, expected: Refusal) {
    let Err(refusal) = result else {
        panic!("each of these is refused");
    };
    assert_eq!(refusal, expected);
    let Refusal { number, spot } = expected;
    let error: Box<dyn Error> = Box::new(refusal);
    let sentence = error.to_string();
    let starts = sentence.starts_with(&format!("refusal {number}: "));
    assert!(starts, "{sentence}");
    let one_spot = [
        Refusal::WORD_LENGTH,
        Refusal::BUNDLE_LENGTH,
        Refusal::REPLACED_EVENTS,
    ];
    let has_spot = one_spot.contains(&number) || sentence.contains(&spot.to_string());
    assert!(has_spot, "{sentence}");
}
