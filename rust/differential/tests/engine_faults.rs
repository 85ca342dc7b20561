//! The carried engine: bundles that are cut anywhere, or altered in any byte.

use differential::bundle_faults::{refusal_of_cut, BundleFault};
use differential::bundles::{Bundle, Field, SAMPLE_A, SAMPLE_E, SAMPLE_NEW};
use differential::engine::{any_event, any_kept, any_tokens, start, step, step_with_room};
use differential::nets::small_certified;
use differential::run::{refusal, Run};
use differential::screening::any_net;
use reference::Refusal;

/// A bundle of up to so many bytes.
fn small_bundle(run: &mut Run, most: usize) -> Bundle {
    loop {
        let bundle = match run.rng.below(2) {
            0 => small_certified(&mut run.rng).bundle,
            _ => any_net(&mut run.rng).0,
        };
        if bundle.bytes().len() <= most {
            return bundle;
        }
    }
}

/// A start and a step on bytes that are refused so: nothing is written.
fn both_refused(run: &mut Run, bytes: &[u8], expected: Refusal) {
    let tokens = any_tokens(&mut run.rng, 66);
    let started = start(run, bytes, &tokens);
    assert_eq!(started.outcome, Err(expected), "{bytes:?}, {run}");
    assert_eq!(started.tokens, tokens, "{run}");
    let number = run.rng.below(65_535);
    let kept = any_kept(&mut run.rng, number);
    let event = any_event(&mut run.rng, 12);
    let played = step(run, bytes, &tokens, &kept, number, event);
    assert_eq!(played.outcome, Err(expected), "{bytes:?}, {run}");
    assert_eq!((played.tokens, played.kept), (tokens, kept), "{run}");
}

/// As long as a byte of the last place is missing a bundle ends before or inside a field, and
/// what is missing further behind does not matter.
#[test]
fn every_beginning() {
    let mut run = Run::start("engine_faults::every_beginning");
    for _ in 0..run.cases(40) {
        let bundle = small_bundle(&mut run, 400);
        let layout = bundle.layout();
        let bytes = [layout.bytes.as_slice(), &run.rng.bytes(10)].concat();
        let tokens = vec![300; 66];
        let event = run.rng.below(bundle.n);
        let started = start(&mut run, &bytes, &tokens);
        let kept = any_kept(&mut run.rng, 3);
        let played = step(&mut run, &bytes, &tokens, &kept, 3, event);
        for length in 0..bytes.len() {
            let beginning = &bytes[..length];
            if length >= layout.places_end {
                run.note("cut behind the last place");
                assert_eq!(start(&mut run, beginning, &tokens), started, "{run}");
                assert_eq!(
                    step(&mut run, beginning, &tokens, &kept, 3, event),
                    played,
                    "{run}"
                );
            } else {
                let expected = match length {
                    0 => Refusal { number: 4, spot: 0 },
                    _ => refusal_of_cut(&layout, length),
                };
                both_refused(&mut run, beginning, expected);
            }
        }
    }
    run.finish_with_classes(
        &[(0, 200), (4, 80), (6, 2_000)],
        &[("cut behind the last place", 400)],
    );
}

/// Every value of every byte of a bundle.
#[test]
fn every_byte() {
    let mut run = Run::start("engine_faults::every_byte");
    for bundle in [SAMPLE_A.as_slice(), &SAMPLE_E, &SAMPLE_NEW] {
        for position in 0..bundle.len() {
            for value in 0..=255 {
                let mut bytes = bundle.to_vec();
                bytes[position] = value;
                let started = start(&mut run, &bytes, &[7; 3]);
                for event in 0..3 {
                    step_with_room(&mut run, &bytes, &started.tokens, 5, event);
                }
            }
        }
    }
    run.finish_with_classes(
        &[(0, 50_000), (5, 8), (6, 1_500), (7, 8_000), (15, 5_000)],
        &[("permitted", 20_000), ("stopped", 10_000)],
    );
}

/// Wrong values up to the last place.
#[test]
fn wrong_values() {
    let mut run = Run::start("engine_faults::wrong_values");
    let fields = [
        Field::EventCount,
        Field::Mark,
        Field::Event,
        Field::PlaceCount,
    ];
    for field in fields {
        let mut made = 0;
        while made < run.cases(100) {
            let certified = small_certified(&mut run.rng);
            let fault = BundleFault::Value(field).bytes(&mut run.rng, &certified);
            if let Some((bytes, refused)) = fault {
                both_refused(&mut run, &bytes, refused);
                made += 1;
            }
        }
    }
    run.finish(&[(7, 800)]);
}

/// Bytes that are no bundle.
#[test]
fn random_bytes() {
    let mut run = Run::start("engine_faults::random_bytes");
    for _ in 0..run.cases(1_000) {
        let count = run.rng.within(1..=200);
        let mut bytes = run.rng.bytes(count);
        bytes[0] = run.rng.choose(&[0, 13, 128, 141, 1, 12, 140]);
        let tokens = any_tokens(&mut run.rng, 64);
        let started = start(&mut run, &bytes, &tokens).outcome;
        if [0, 13, 128, 141].contains(&bytes[0]) {
            assert_eq!(started, refusal(7, 0), "{run}");
        }
        step_with_room(&mut run, &bytes, &tokens, 1, 0);
    }
    run.finish(&[(7, 1_000)]);
}
