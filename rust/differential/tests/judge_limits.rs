//! Judging: bundles at the limits, and one beyond.

use differential::bundle_faults::{refusal_of_cut, BundleFault};
use differential::bundles::{Bundle, Certificate, Field, Place, Term};
use differential::bundles::{MAX_LENGTH, MAX_PLACES, MAX_TERMS, MAX_WORDS};
use differential::files::MAX_BUNDLE_SIZE;
use differential::judging::judge;
use differential::limits::{Size, LARGEST, MIDDLE, MOST_WORDS};
use differential::logs::{random_word, MAX_LOG_EVENTS, MAX_ROWS, TABLE};
use differential::nets::{certified, fitting_place, Certified};
use differential::run::{refusal, Outcome, Run};
use reference::{log_rows, Tally};

/// Judges without the definitions, which take long for large bundles.
fn judge_on_both_sides(run: &mut Run, bundle: &[u8]) -> Outcome<Tally> {
    let table: Vec<u16> = run.rng.items(TABLE);
    run.judge(bundle, &table).outcome
}

/// The bundles that are as large as they can be.
#[test]
fn largest_bundles() {
    let mut run = Run::start("largest_bundles");
    for size in [LARGEST, MOST_WORDS] {
        let certified = size.certified(&mut run.rng);
        let Certified {
            bundle,
            counts,
            rows,
        } = &certified;
        let layout = bundle.layout();
        assert_eq!(layout.bytes.len(), MAX_BUNDLE_SIZE);
        assert_eq!(rows.len(), MAX_ROWS);
        assert_eq!(bundle.places.len(), MAX_PLACES);
        assert_eq!(counts.by_weights, 252);
        assert_eq!(
            counts.allowed + counts.by_place + counts.by_weights,
            12 * 256
        );
        assert_eq!(judge(&mut run, &layout.bytes), Ok(*counts), "{run}");

        let one_more = [layout.bytes.as_slice(), &[0]].concat();
        let outcome = judge_on_both_sides(&mut run, &one_more);
        assert_eq!(outcome, refusal(4, 0), "{run}");
        for _ in 0..run.cases(50) {
            let length = run.rng.within(1..=MAX_BUNDLE_SIZE - 1);
            let outcome = judge_on_both_sides(&mut run, &layout.bytes[..length]);
            let expected = Err(refusal_of_cut(&layout, length));
            assert_eq!(outcome, expected, "{length}, {run}");
        }
    }
    run.finish(&[(0, 2), (4, 2), (6, 100)]);
}

/// Every fault in bundles of middle and of the largest size.
#[test]
fn faults_in_large_bundles() {
    let mut run = Run::start("faults_in_large_bundles");
    for (size, count) in [(MIDDLE, 20), (LARGEST, 2)] {
        let certified = size.certified(&mut run.rng);
        for fault in BundleFault::ALL {
            for _ in 0..run.cases(count) {
                let made = fault.bytes(&mut run.rng, &certified);
                // One byte more than there can be is another fault.
                let Some((bytes, refused)) = made.filter(|(b, _)| b.len() <= MAX_BUNDLE_SIZE)
                else {
                    continue;
                };
                let outcome = judge_on_both_sides(&mut run, &bytes);
                assert_eq!(outcome, Err(refused), "{fault:?}, {run}");
            }
        }
    }
    run.finish(&[(6, 20), (7, 150), (10, 20), (11, 20), (12, 100), (13, 15)]);
}

/// A bundle up to its last word, and the offset of each word's length byte. Where
/// the log is not refused, the place count is missing.
fn log_only(n: u8, words: &[Vec<u8>]) -> (Vec<u8>, Vec<usize>) {
    let mut bytes = vec![n, words.len() as u8];
    let mut lengths = Vec::new();
    for word in words {
        lengths.push(bytes.len());
        bytes.push(word.len() as u8);
        bytes.extend(word);
    }
    (bytes, lengths)
}

/// Sample J: four words of 255 equal events, and a fifth one.
#[test]
fn sample_j() {
    let mut run = Run::start("judge_limits::sample_j");
    let words = vec![vec![0; 255]; 4];
    let sample = certified(&mut run.rng, 1, words).expect("one wrong continuation");
    let counts = Tally {
        rows: 256,
        allowed: 255,
        by_place: 1,
        by_weights: 0,
    };
    assert_eq!(judge(&mut run, &sample.bundle.bytes()), Ok(counts), "{run}");

    let with_fifth = Bundle {
        words: vec![vec![0; 255]; 5],
        ..sample.bundle.clone()
    };
    let outcome = judge(&mut run, &with_fifth.bytes());
    assert_eq!(outcome, refusal(8, 2 + 4 * 256), "{run}");

    // Four events are left.
    for (events, expected) in [(4, Ok(counts)), (5, refusal(8, 2 + 4 * 256))] {
        let mut longer = sample.bundle.clone();
        longer.words.push(vec![0; events]);
        assert_eq!(judge(&mut run, &longer.bytes()), expected, "{run}");
    }
    run.finish(&[(0, 2), (8, 2)]);
}

/// From every number of rows to 256 of them, and to one more.
#[test]
fn rows_up_to_the_limit() {
    let mut run = Run::start("judge_limits::rows_up_to_the_limit");
    for rows in 1..=MAX_ROWS {
        let first = vec![0; rows - 1];
        let left = MAX_ROWS - rows;
        for (more, enough) in [(left, true), (left + 1, false)] {
            // The row of the empty prefix is there, so each event needs one more.
            if more > MAX_LENGTH {
                continue;
            }
            let (bytes, lengths) = log_only(2, &[first.clone(), vec![1; more], vec![0]]);
            let expected = if !enough {
                refusal(9, lengths[1])
            } else if rows == 1 {
                // The last word needs a row, and there is none.
                refusal(9, lengths[2])
            } else {
                refusal(6, bytes.len())
            };
            assert_eq!(judge_on_both_sides(&mut run, &bytes), expected, "{run}");
        }
    }
    run.finish(&[(6, 255), (9, 256)]);
}

/// A word that passes 256 rows is read to its end first, and a word that passes
/// 1,024 events is not read.
#[test]
fn events_and_rows_at_once() {
    let mut run = Run::start("events_and_rows_at_once");
    for _ in 0..run.cases(500) {
        let n = run.rng.within(2..=12) as u8;
        let base = vec![0; run.rng.within(200..=255)];
        let mut words = vec![base.clone(); run.rng.within(1..=4)];
        let events: usize = words.iter().map(Vec::len).sum();
        let mut last = vec![1; run.rng.within(1..=255)];
        let bad = run.rng.below(last.len());
        let has_bad = run.rng.below(2) == 0;
        if has_bad {
            last[bad] = run.rng.within(n.into()..=255) as u8;
        }
        words.push(last.clone());
        let (mut bytes, lengths) = log_only(n, &words);
        let length = *lengths.last().expect("a word");
        let start = length + 1;
        let any = run.rng.within(0..=last.len());
        let cut = run.rng.choose(&[any, last.len()]);
        bytes.truncate(start + cut);

        let expected = if events + last.len() > MAX_LOG_EVENTS {
            refusal(8, length)
        } else if has_bad && bad < cut {
            refusal(7, start + bad)
        } else if cut < last.len() {
            refusal(6, start + cut)
        } else if log_rows(n.into(), &[base, last]).len() > MAX_ROWS {
            refusal(9, length)
        } else {
            refusal(6, bytes.len())
        };
        assert_eq!(judge_on_both_sides(&mut run, &bytes), expected, "{run}");
    }
    run.finish(&[(6, 50), (7, 50), (8, 15), (9, 30)]);
}

/// 255 words, and words of every length.
#[test]
fn words_up_to_the_limit() {
    let mut run = Run::start("words_up_to_the_limit");
    for length in 0..=MAX_LENGTH {
        let words = match length {
            0..=4 => vec![vec![0; length]; MAX_WORDS],
            _ => vec![vec![0; length]; MAX_LOG_EVENTS / length],
        };
        let certified = certified(&mut run.rng, 1, words).expect("one wrong continuation");
        assert_eq!(certified.counts.rows, length + 1);
        let outcome = judge_on_both_sides(&mut run, &certified.bundle.bytes());
        assert_eq!(outcome, Ok(certified.counts), "{run}");
    }
    run.finish(&[(0, 256)]);
}

/// Every number of places up to 64, and one more.
#[test]
fn places_up_to_the_limit() {
    let mut run = Run::start("places_up_to_the_limit");
    for n in [1, 2, 12] {
        let certified = certified(&mut run.rng, n, vec![vec![0, 0]]).expect("a small log");
        let mut bundle = certified.bundle;
        while bundle.places.len() <= MAX_PLACES {
            let outcome = judge(&mut run, &bundle.bytes());
            assert_eq!(outcome, Ok(certified.counts), "{run}");
            run.note("accepted");
            bundle
                .places
                .extend(fitting_place(&mut run.rng, &certified.rows));
        }
        let layout = bundle.layout();
        let spot = layout.all(Field::PlaceCount)[0].start;
        let outcome = judge(&mut run, &layout.bytes);
        assert_eq!(outcome, refusal(7, spot), "{run}");
    }
    run.finish_with_classes(&[(7, 3)], &[("accepted", 120)]);
}

/// Every number of terms up to 64, and one more.
#[test]
fn terms_up_to_the_limit() {
    let mut run = Run::start("terms_up_to_the_limit");
    for terms in 2..=MAX_TERMS {
        let size = Size {
            n: 2,
            zeros: 2,
            words: 2,
            events: 4,
            places: 3,
            terms,
        };
        let certified = size.certified(&mut run.rng);
        let outcome = judge(&mut run, &certified.bundle.bytes());
        assert_eq!(outcome, Ok(certified.counts), "{run}");

        if terms == MAX_TERMS {
            let mut bundle = certified.bundle;
            for certificate in &mut bundle.certificates {
                if let Certificate::Weights { terms, .. } = certificate {
                    terms.push(Term {
                        weight: 0,
                        ..terms[0]
                    });
                }
            }
            let layout = bundle.layout();
            let spot = layout.all(Field::TermCount)[0].start;
            let outcome = judge(&mut run, &layout.bytes);
            assert_eq!(outcome, refusal(7, spot), "{run}");
        }
    }
    run.finish(&[(0, 63), (7, 1)]);
}

/// The largest numbers of a place over the longest word: nothing overflows.
#[test]
fn largest_numbers() {
    let mut run = Run::start("largest_numbers");
    let largest = 65_535;
    for (m, ins, outs, expected) in [
        // The place permits the only wrong continuation, with 255 events before.
        (largest, largest, 0, refusal(11, 0)),
        (0, largest, 0, refusal(11, 0)),
        (largest, largest, largest, refusal(11, 0)),
        // 65,535 tokens are 257 for each event of the word, and none is left.
        (largest, 0, 255, refusal(11, 0)),
        (largest, 0, 256, Ok(1)),
        (largest, 0, 257, Ok(1)),
        (largest, 0, 258, refusal(10, 0)),
        (largest, 0, largest, refusal(10, 0)),
        (0, largest, largest, refusal(10, 0)),
        (0, 0, largest, refusal(10, 0)),
    ] {
        for n in [1, 2, 12] {
            let word = random_word(&mut run.rng, n, MAX_LENGTH..=MAX_LENGTH);
            let bundle = Bundle {
                n,
                words: vec![word],
                marks: None,
                places: vec![Place {
                    m,
                    ins: vec![ins; n],
                    outs: vec![outs; n],
                }],
                certificates: vec![Certificate::Place(0); n * MAX_ROWS - MAX_LENGTH],
            };
            let outcome = judge(&mut run, &bundle.bytes());
            // With more events, the place also permits what is wrong before.
            let expected = match expected {
                Ok(_) if n > 1 => refusal(11, 0),
                _ => expected,
            };
            let by_place = outcome.map(|counts| counts.by_place);
            assert_eq!(by_place, expected, "{bundle:?}, {run}");
        }
    }
    run.finish(&[(0, 2), (10, 12), (11, 16)]);
}
