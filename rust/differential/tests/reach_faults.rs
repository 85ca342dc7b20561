//! The search for a word: bundles that are cut anywhere, or altered in any byte.

use differential::bundle_faults::{refusal_of_cut, BundleFault};
use differential::bundles::{Field, SAMPLE_A, SAMPLE_E, SAMPLE_NEW};
use differential::nets::small_certified;
use differential::reaching::{any_wanted, few_tokens, reach};
use differential::run::Run;
use reference::Refusal;

/// As long as a byte of the last place is missing a bundle ends before or inside a field, and
/// what follows that place does not matter.
#[test]
fn every_beginning() {
    let mut run = Run::start("reach_faults::every_beginning");
    for _ in 0..run.cases(60) {
        let (bundle, wanted) = few_tokens(&mut run.rng);
        let layout = bundle.layout();
        let bytes = [layout.bytes.as_slice(), &run.rng.bytes(10)].concat();
        let reached = reach(&mut run, &bytes, wanted);
        for length in 0..bytes.len() {
            let beginning = &bytes[..length];
            if length >= layout.places_end {
                run.note("cut behind the last place");
                assert_eq!(reach(&mut run, beginning, wanted), reached, "{run}");
                continue;
            }
            let expected = match length {
                0 => Refusal { number: 4, spot: 0 },
                _ => refusal_of_cut(&layout, length),
            };
            let wanted = any_wanted(&mut run.rng, bundle.n);
            assert_eq!(reach(&mut run, beginning, wanted), Err(expected), "{run}");
        }
    }
    run.finish_with_classes(
        &[(0, 660), (4, 60), (6, 3_000)],
        &[("cut behind the last place", 600)],
    );
}

/// Every value of every byte of a bundle.
#[test]
fn every_byte() {
    let mut run = Run::start("reach_faults::every_byte");
    for bundle in [SAMPLE_A.as_slice(), &SAMPLE_E, &SAMPLE_NEW] {
        for position in 0..bundle.len() {
            for value in 0..=255 {
                let mut bytes = bundle.to_vec();
                bytes[position] = value;
                for wanted in 0..3 {
                    let reached = reach(&mut run, &bytes, wanted);
                    run.note(if reached.is_ok() {
                        "a result"
                    } else {
                        "a refusal"
                    });
                }
            }
        }
    }
    run.finish_with_classes(
        &[(0, 77_239), (6, 1_404), (7, 16_530), (15, 15_419)],
        &[
            ("no event", 54_642),
            ("1 event", 14_893),
            ("2 events", 1),
            ("none", 7_703),
        ],
    );
}

/// Wrong values up to the last place.
#[test]
fn wrong_values() {
    let mut run = Run::start("reach_faults::wrong_values");
    let fields = [
        Field::EventCount,
        Field::Mark,
        Field::Event,
        Field::PlaceCount,
    ];
    for field in fields {
        let mut made = 0;
        while made < run.cases(100) {
            let certified = small_certified(&mut run.rng);
            let fault = BundleFault::Value(field).bytes(&mut run.rng, &certified);
            if let Some((bytes, refused)) = fault {
                let wanted = any_wanted(&mut run.rng, certified.bundle.n);
                assert_eq!(reach(&mut run, &bytes, wanted), Err(refused), "{run}");
                made += 1;
            }
        }
    }
    run.finish(&[(7, 400)]);
}
