//! Judging in the new edition: the largest bundles, and the largest sums.

use differential::bundle_faults::{refusal_of_cut, BundleFault};
use differential::bundles::{Bundle, Certificate, Field, Pair, MAX_WORDS};
use differential::files::MAX_BUNDLE_SIZE;
use differential::judging::judge;
use differential::logs::{MAX_LOG_EVENTS, TABLE};
use differential::run::{refusal, Outcome, Run};
use differential::sales::{one_event, LARGEST_NEW, MIDDLE_NEW};
use reference::Tally;

/// The largest bundles, one byte more, and cut.
#[test]
fn largest_bundle() {
    let mut run = Run::start("judge_completed::largest_bundle");
    let certified = LARGEST_NEW.certified(&mut run.rng);
    let layout = certified.bundle.layout();
    assert_eq!(layout.bytes.len(), MAX_BUNDLE_SIZE);
    assert_eq!(certified.rows.len(), 256);
    assert_eq!(certified.counts.by_weights, 128);
    assert_eq!(
        judge(&mut run, &layout.bytes),
        Ok(certified.counts),
        "{run}"
    );
    let one_more = [layout.bytes.as_slice(), &[0]].concat();
    assert_eq!(on_both_sides(&mut run, &one_more), refusal(4, 0), "{run}");
    for _ in 0..run.cases(100) {
        let length = run.rng.within(1..=MAX_BUNDLE_SIZE - 1);
        let outcome = on_both_sides(&mut run, &layout.bytes[..length]);
        let expected = Err(refusal_of_cut(&layout, length));
        assert_eq!(outcome, expected, "{length}, {run}");
    }
    run.finish(&[(0, 1), (4, 1), (6, 100)]);
}

/// Judges without the definitions, which take long for large bundles.
fn on_both_sides(run: &mut Run, bundle: &[u8]) -> Outcome<Tally> {
    let table: Vec<u16> = run.rng.items(TABLE);
    run.judge(bundle, &table).outcome
}

/// Every fault in bundles of middle and of the largest size.
#[test]
fn faults_in_large_bundles() {
    let mut run = Run::start("judge_completed::faults_in_large_bundles");
    for (size, count) in [(MIDDLE_NEW, 20), (LARGEST_NEW, 2)] {
        let certified = size.certified(&mut run.rng);
        for fault in BundleFault::ALL {
            for _ in 0..run.cases(count) {
                let made = fault.bytes(&mut run.rng, &certified);
                let Some((bytes, refused)) = made.filter(|(b, _)| b.len() <= MAX_BUNDLE_SIZE)
                else {
                    continue;
                };
                let outcome = on_both_sides(&mut run, &bytes);
                assert_eq!(outcome, Err(refused), "{fault:?}, {run}");
            }
        }
    }
    run.finish(&[(6, 20), (7, 200), (10, 40), (11, 20), (12, 150), (20, 30)]);
}

/// The last word of the log alone is completed, and a pair names it, or the number behind
/// it, which is no word's.
#[test]
fn largest_word_number() {
    let mut run = Run::start("largest_word_number");
    for words in [1, 2, 254, MAX_WORDS] {
        for (word, holds) in [(words - 1, true), (words, false)] {
            let pair = Pair {
                word: word as u8,
                weight: 1,
            };
            let mut bundle = one_event(1, 1, vec![pair]);
            let mut marks = vec![false; words - 1];
            bundle.words = [vec![Vec::new(); words - 1], bundle.words].concat();
            marks.push(true);
            bundle.marks = Some(marks);
            let layout = bundle.layout();
            let rows = judge(&mut run, &layout.bytes).map(|counts| counts.rows);
            let expected = match holds {
                true => Ok(2),
                false => refusal(7, layout.all(Field::PairWord)[0].start),
            };
            assert_eq!(rows, expected, "{words} words, {run}");
        }
    }
    run.finish(&[(0, 4), (7, 4)]);
}

/// A log without words, and a pair.
#[test]
fn no_word_to_name() {
    let mut run = Run::start("no_word_to_name");
    let certificate = Certificate::Weights {
        k: 1,
        terms: Vec::new(),
        pairs: vec![Pair { word: 0, weight: 0 }],
    };
    let bundle = Bundle {
        n: 1,
        words: Vec::new(),
        marks: Some(Vec::new()),
        places: Vec::new(),
        certificates: vec![certificate],
    };
    let layout = bundle.layout();
    let spot = layout.all(Field::PairWord)[0].start;
    let outcome = judge(&mut run, &layout.bytes);
    assert_eq!(outcome, refusal(7, spot), "{run}");
    run.finish(&[(7, 1)]);
}

/// 1,024 events in completed words, and more; then the mark is not read.
#[test]
fn most_events() {
    let mut run = Run::start("judge_completed::most_events");
    for last in [0, 3, 4, 5, 255] {
        let mut bundle = one_event(255, 1, vec![Pair { word: 0, weight: 1 }]);
        bundle.words = vec![vec![0; 255]; 4];
        bundle.words.push(vec![0; last]);
        bundle.marks = Some(vec![true; 5]);
        let layout = bundle.layout();
        let [length, mark] = [Field::Length, Field::Mark].map(|field| layout.all(field)[4].start);
        let is_allowed = 4 * 255 + last <= MAX_LOG_EVENTS;
        for value in [0, 1, 2] {
            let mut bytes = layout.bytes.clone();
            bytes[mark] = value;
            let rows = judge(&mut run, &bytes).map(|counts| counts.rows);
            let expected = match (is_allowed, value) {
                (true, 2) => refusal(7, mark),
                (true, _) => Ok(256),
                (false, _) => refusal(8, length),
            };
            assert_eq!(rows, expected, "{last}, {value}, {run}");
        }
    }
    run.finish(&[(0, 6), (7, 3), (8, 6)]);
}

/// One event, and the completed word of 255 of them. Event 0 after it is event 0 at first:
/// with 64 pairs of the largest weights, which cancel out or do not.
#[test]
fn largest_sums() {
    let mut run = Run::start("largest_sums");
    for k in [1, 255, 32_767] {
        for (weights, holds) in [
            (vec![k as i16], true),
            (
                [vec![k as i16], [32_767, -32_767].repeat(31)].concat(),
                true,
            ),
            (
                [
                    vec![32_767; 21],
                    vec![-32_768; 21],
                    vec![1; 21],
                    vec![k as i16],
                ]
                .concat(),
                true,
            ),
            (vec![k as i16 - 1, 1, 0], true),
            (vec![32_767; 64], false),
            (vec![-32_768; 64], false),
            ([vec![32_767; 32], vec![-32_768; 32]].concat(), false),
            // 257 × 255 is 65,535; with 1 more for k = 1 it is 2^16 and 254 more.
            (vec![k as i16, 257], false),
            (vec![k as i16, -257], false),
        ] {
            let pairs = run.rng.shuffled(&weights);
            let pairs = pairs.iter().map(|&weight| Pair { word: 0, weight });
            let bundle = one_event(255, k, pairs.collect());
            let expected = match holds {
                true => Ok(Tally {
                    rows: 256,
                    allowed: 255,
                    by_place: 0,
                    by_weights: 1,
                }),
                false => refusal(12, 0),
            };
            let outcome = judge(&mut run, &bundle.bytes());
            assert_eq!(outcome, expected, "{k}, {weights:?}, {run}");
        }
    }
    // 128 events: so the sum is right but for a multiple of 2^16.
    for weight in [512, -512, 32_256] {
        let pairs = [1, weight].map(|weight| Pair { word: 0, weight });
        let outcome = judge(&mut run, &one_event(128, 1, pairs.to_vec()).bytes());
        assert_eq!(outcome, refusal(12, 0), "{weight}, {run}");
    }
    run.finish(&[(0, 12), (12, 18)]);
}
