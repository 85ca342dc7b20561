//! Conversion between the editions: bundles as large as they can be, and every limit that a
//! byte more for each word and for each certificate of kind 1 meets.

use differential::bundles::{Bundle, Certificate, Place};
use differential::editions::{in_new, in_old, make_new};
use differential::files::MAX_BUNDLE_SIZE;
use differential::limits::{Size, LARGEST, LARGEST_FITTING, MIDDLE, MOST_WORDS};
use differential::logs::{MAX_EVENTS, TABLE};
use differential::nets::Certified;
use differential::rewriting::Rewrite::{self, ToNew, ToOld};
use differential::rewriting::{rewrite, rewrite_as, rewritten};
use differential::run::{refusal, Run};
use differential::sales::LARGEST_NEW;

/// Converts a bundle that is accepted with these counts with outputs and tables of several
/// lengths. The definitions would take long for the judging.
fn convert(run: &mut Run, call: Rewrite, certified: &Certified) {
    let bytes = certified.bundle.bytes();
    let judged = run.judge(&bytes, &[0; TABLE]);
    assert_eq!(judged.outcome, Ok(certified.counts), "{run}");
    let outcome = match call {
        ToNew => in_new(&certified.bundle),
        _ => in_old(&certified.bundle),
    };
    rewrite_as(run, call, &bytes, &outcome, &judged.table);
}

/// A bundle whose new form is as long as a bundle can be, and one whose new form would be
/// longer by a byte: 4 then comes before 3.
#[test]
fn the_longest_result() {
    let mut run = Run::start("the_longest_result");
    let mut exact = LARGEST_FITTING.certified(&mut run.rng);
    let event_more = Size {
        events: 1_021,
        ..LARGEST_FITTING
    };
    let longer = event_more.certified(&mut run.rng);
    assert_eq!(longer.bundle.bytes().len(), 64_009, "{run}");
    assert_eq!(in_new(&longer.bundle), refusal(4, 0), "{run}");
    convert(&mut run, ToNew, &longer);
    convert(&mut run, ToOld, &longer);

    let old = exact.bundle.bytes();
    convert(&mut run, ToNew, &exact);
    let new = rewritten(&mut run, ToNew, &old);
    assert_eq!((old.len(), new.len()), (64_008, MAX_BUNDLE_SIZE), "{run}");
    assert!(rewritten(&mut run, ToOld, &new) == old, "{run}");
    make_new(&mut exact.bundle);
    assert!(exact.bundle.bytes() == new, "{run}");
    convert(&mut run, ToOld, &exact);
    convert(&mut run, ToNew, &exact);
    run.finish(&[(0, 5 + 2 + 4 * 8), (3, 4 * 4), (4, 12), (5, 5 * 12)]);
}

/// A bundle of the old edition that is as long as it can be is refused with 4, whatever the
/// output; one of the new edition is copied.
#[test]
fn largest_bundles() {
    let mut run = Run::start("convert::largest_bundles");
    for size in [LARGEST, MOST_WORDS, MIDDLE] {
        let certified = size.certified(&mut run.rng);
        for call in Rewrite::CONVERSIONS {
            convert(&mut run, call, &certified);
        }
    }
    let certified = LARGEST_NEW.certified(&mut run.rng);
    assert_eq!(certified.bundle.bytes().len(), MAX_BUNDLE_SIZE, "{run}");
    for call in Rewrite::CONVERSIONS {
        convert(&mut run, call, &certified);
    }
    run.finish(&[(0, 8 + 5 * 8), (3, 5 * 4), (4, 24), (5, 8 * 12), (21, 12)]);
}

/// Bundles whose new forms have each length about the limit: of these an empty word more has
/// two bytes, and an event fewer takes one away.
#[test]
fn every_length_about_the_limit() {
    let mut run = Run::start("every_length_about_the_limit");
    let Certified { bundle, .. } = LARGEST_FITTING.certified(&mut run.rng);
    for more in 0..=3 {
        for fewer in 0..=8 {
            let mut bundle = bundle.clone();
            // The last words are beginnings of a longer one, so that no row is lost.
            let words = bundle.words.iter_mut().rev();
            for word in words.filter(|word| word.len() > 1).take(fewer) {
                word.pop();
            }
            bundle.words.extend(vec![Vec::new(); more]);
            let length = MAX_BUNDLE_SIZE + 2 * more - fewer;
            let outcome = match length <= MAX_BUNDLE_SIZE {
                true => Ok(length),
                false => refusal(4, 0),
            };
            let done = run.rewrite(ToNew, &bundle.bytes(), MAX_BUNDLE_SIZE, &[0; TABLE]);
            assert_eq!(done.outcome, outcome, "{more} more, {fewer} fewer, {run}");
        }
    }
    run.finish(&[(0, 24), (4, 12)]);
}

/// A place that refuses every event but the first.
fn place(n: usize) -> Place {
    Place {
        m: 1,
        ins: vec![0; n],
        outs: vec![1; n],
    }
}

/// With every event count and no word: the first byte alone is another one.
#[test]
fn every_event_count() {
    let mut run = Run::start("convert::every_event_count");
    for n in 1..=MAX_EVENTS {
        let mut no_tokens = place(n);
        no_tokens.m = 0;
        let mut bundle = Bundle {
            n,
            words: Vec::new(),
            marks: None,
            places: vec![no_tokens],
            certificates: vec![Certificate::Place(0); n],
        };
        let old = bundle.bytes();
        make_new(&mut bundle);
        let new = bundle.bytes();
        assert_eq!((new[0], &new[1..]), (128 + n as u8, &old[1..]), "{run}");
        for (call, bundle, result) in [(ToNew, &old, &new), (ToOld, &new, &old)] {
            assert_eq!(
                rewrite(&mut run, call, bundle).as_ref(),
                Ok(result),
                "{run}"
            );
            assert_eq!(
                rewrite(&mut run, call, result).as_ref(),
                Ok(result),
                "{run}"
            );
        }
    }
    run.finish(&[(0, 12 * 32), (3, 12 * 16), (5, 12 * 48)]);
}

/// Of every number of words, which are empty or have one event.
#[test]
fn every_word_count() {
    let mut run = Run::start("every_word_count");
    for count in 0..=255usize {
        let words: Vec<Vec<u8>> = (0..count).map(|_| vec![0; run.rng.below(2)]).collect();
        let has_event = words.iter().any(|word| !word.is_empty());
        let mut bundle = Bundle {
            n: 1,
            words,
            marks: None,
            places: vec![Place {
                m: has_event.into(),
                ..place(1)
            }],
            certificates: vec![Certificate::Place(0)],
        };
        let old = bundle.bytes();
        make_new(&mut bundle);
        let new = bundle.bytes();
        assert_eq!(new.len(), old.len() + count, "{run}");
        assert!(rewritten(&mut run, ToNew, &old) == new, "{run}");
        assert!(rewritten(&mut run, ToOld, &new) == old, "{run}");
    }
    run.finish(&[(0, 512)]);
}
