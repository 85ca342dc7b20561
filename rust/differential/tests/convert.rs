//! Conversion between the editions: accepted and refused bundles, with outputs and tables of
//! every length.

use differential::bundle_faults::{altered, BundleFault};
use differential::bundles::{
    one_for_each_answer, MAX_WORDS, SAMPLE_A, SAMPLE_A_NEW, SAMPLE_E, SAMPLE_NEW,
};
use differential::editions::{in_new, in_old, note, small_certified};
use differential::files::MAX_BUNDLE_SIZE;
use differential::logs::{table_of, TABLE};
use differential::nets::small_log;
use differential::rewriting::Rewrite::{ToNew, ToOld};
use differential::rewriting::{rewrite, Rewrite, TABLE_LENGTHS};
use differential::run::{output_lengths, refusal, Outcome, Run};

/// Bundles and their results, byte by byte.
#[test]
fn by_hand() {
    let mut run = Run::start("convert::by_hand");
    let e_new = [[129].as_slice(), &SAMPLE_E[1..]].concat();
    // One event and three words: 0, an empty one, 0. The place has two tokens.
    let with_empty = [1, 3, 1, 0, 0, 1, 0, 1, 1, 0, 0, 0, 1, 0, 0, 0];
    let with_empty_new = [129, 3, 1, 0, 0, 0, 0, 1, 0, 0, 1, 1, 0, 0, 0, 1, 0, 0, 0];
    for (old, new) in [
        (SAMPLE_A.as_slice(), SAMPLE_A_NEW.as_slice()),
        (&SAMPLE_E, &e_new),
        (&with_empty, &with_empty_new),
    ] {
        for (call, bundle, expected) in [
            (ToNew, old, new),
            (ToNew, new, new),
            (ToOld, new, old),
            (ToOld, old, old),
        ] {
            let outcome = rewrite(&mut run, call, bundle);
            assert_eq!(outcome.as_deref(), Ok(expected), "{call:?}, {run}");
        }
    }
    let outcome = rewrite(&mut run, ToNew, &SAMPLE_NEW);
    assert_eq!(outcome.as_deref(), Ok(SAMPLE_NEW.as_slice()), "{run}");
    assert_eq!(
        rewrite(&mut run, ToOld, &SAMPLE_NEW),
        refusal(21, 0),
        "{run}"
    );
    run.finish(&[(0, 13 * 8), (3, 13 * 4), (5, 14 * 12), (21, 12)]);
}

/// Empty words, of which these are completed: the first one is named.
#[test]
fn first_completed_word() {
    let mut run = Run::start("first_completed_word");
    let rest = [1, 0, 0, 0, 0, 1, 0, 0, 0];
    let marked = |marks: &[u8]| {
        let words: Vec<u8> = marks.iter().flat_map(|&mark| [0, mark]).collect();
        [&[129, marks.len() as u8], words.as_slice(), &rest].concat()
    };
    for first in 0..MAX_WORDS {
        let mut marks = vec![0; MAX_WORDS];
        marks[first] = 1;
        for mark in &mut marks[first + 1..] {
            *mark = run.rng.below(2) as u8;
        }
        let bundle = marked(&marks);
        assert_eq!(
            rewrite(&mut run, ToOld, &bundle),
            refusal(21, first),
            "{run}"
        );
    }
    let old = [&[1, 255], vec![0; MAX_WORDS].as_slice(), &rest].concat();
    let outcome = rewrite(&mut run, ToOld, &marked(&[0; MAX_WORDS]));
    assert_eq!(outcome, Ok(old), "{run}");
    run.finish(&[(0, 8), (3, 4), (21, 255 * 12)]);
}

/// Bundles of both editions, with completed words and without.
#[test]
fn any_bundles() {
    let mut run = Run::start("convert::any_bundles");
    for _ in 0..run.cases(300) {
        let certified = small_certified(&mut run.rng);
        note(&mut run, &certified);
        let bundle = &certified.bundle;
        let bytes = bundle.bytes();
        let outcome = rewrite(&mut run, ToNew, &bytes);
        assert_eq!(outcome, in_new(bundle), "{run}");
        let outcome = rewrite(&mut run, ToOld, &bytes);
        assert_eq!(outcome, in_old(bundle), "{run}");
    }
    run.finish_with_classes(
        &[(0, 3_000), (3, 1_500), (5, 7_200), (21, 500)],
        &[
            ("old", 70),
            ("new, no completed word", 70),
            ("new, completed words", 40),
            ("certificates of kind 1", 30),
        ],
    );
}

/// Every refusal of the judge, of both editions. It comes before 21 and 3, and nothing is
/// written.
#[test]
fn refused_bundles() {
    let mut run = Run::start("convert::refused_bundles");
    for call in Rewrite::CONVERSIONS {
        for (bundle, outcome) in one_for_each_answer() {
            let Err(expected) = outcome else { continue };
            if !bundle.is_empty() {
                let outcome = rewrite(&mut run, call, &bundle);
                assert_eq!(outcome, Err(expected), "{call:?}, {run}");
            }
        }
        for fault in BundleFault::ALL {
            for _ in 0..run.cases(4) {
                let certified = small_certified(&mut run.rng);
                if let Some((bundle, refused)) = fault.bytes(&mut run.rng, &certified) {
                    let outcome = rewrite(&mut run, call, &bundle);
                    assert_eq!(outcome, Err(refused), "{call:?}, {fault:?}, {run}");
                }
            }
        }
    }
    let bundle_order = [6, 7, 8, 9, 10, 11, 12, 13, 20].map(|number| (number, 24));
    run.finish(&[vec![(5, 200)], bundle_order.to_vec()].concat());
}

/// Up to four changes at once. The definitions say which fault comes first, and what is
/// still accepted.
#[test]
fn several_faults() {
    let mut run = Run::start("convert::several_faults");
    for _ in 0..run.cases(150) {
        let certified = small_certified(&mut run.rng);
        for _ in 0..4 {
            let bytes = altered(&mut run.rng, &certified.bundle);
            for call in Rewrite::CONVERSIONS {
                rewrite(&mut run, call, &bytes).ok();
            }
        }
    }
    let of_fields = [(5, 10_000), (6, 800), (7, 1_200), (13, 200)];
    let of_nets = [(0, 100), (3, 50), (10, 200), (11, 200)];
    run.finish(&[of_fields, of_nets].concat());
}

/// Cut anywhere, with bytes behind it, and bytes that are no bundle.
#[test]
fn cut_extended_random() {
    let mut run = Run::start("cut_extended_random");
    for _ in 0..run.cases(150) {
        let certified = small_certified(&mut run.rng);
        let bytes = certified.bundle.bytes();
        let cut = &bytes[..run.rng.within(1..=bytes.len() - 1)];
        let count = run.rng.within(1..=9);
        let extended = [bytes.as_slice(), &run.rng.bytes(count)].concat();
        let count = run.rng.within(1..=200);
        let random = run.rng.bytes(count);
        for call in Rewrite::CONVERSIONS {
            let number = |outcome: Outcome<Vec<u8>>| outcome.map_err(|refused| refused.number);
            assert_eq!(number(rewrite(&mut run, call, cut)), Err(6), "{run}");
            let outcome = rewrite(&mut run, call, &extended);
            assert_eq!(outcome, refusal(13, bytes.len()), "{run}");
            rewrite(&mut run, call, &random).ok();
        }
    }
    run.finish(&[(5, 3 * 300 * 12), (6, 300 * 12), (7, 2_000), (13, 300 * 12)]);
}

/// A bundle of no byte or of too many: 4 comes before 5 and 3, and leaves both buffers as
/// they were.
#[test]
fn bundle_lengths() {
    let mut run = Run::start("convert::bundle_lengths");
    for sample in [SAMPLE_A.as_slice(), &SAMPLE_NEW] {
        let largest = [sample, &vec![0; MAX_BUNDLE_SIZE + 1 - sample.len()]].concat();
        for call in Rewrite::CONVERSIONS {
            for bundle in [&[], largest.as_slice()] {
                for output_len in output_lengths(&mut run.rng, bundle.len()) {
                    for table_len in TABLE_LENGTHS {
                        let noise: Vec<u16> = run.rng.items(table_len);
                        let done = run.rewrite(call, bundle, output_len, &noise);
                        assert_eq!(done.outcome, refusal(4, 0), "{run}");
                        assert!(done.table == noise, "another table: {run}");
                    }
                }
            }
            // One byte less: its other bytes follow.
            let outcome = rewrite(&mut run, call, &largest[..MAX_BUNDLE_SIZE]);
            assert_eq!(outcome, refusal(13, sample.len()), "{run}");
        }
    }
    run.finish(&[(4, 4 * 48), (5, 4 * 12), (13, 4 * 12)]);
}

/// Whatever the table held before, also the rows of the same log or of another: it is left
/// as judging leaves it, be there a result, 3, 21 or a refusal of the judge.
#[test]
fn table_contents() {
    let mut run = Run::start("convert::table_contents");
    for _ in 0..run.cases(60) {
        let certified = small_certified(&mut run.rng);
        let bundle = certified.bundle.bytes();
        let cut = &bundle[..run.rng.within(1..=bundle.len() - 1)];
        let (n, words) = small_log(&mut run.rng);
        for table in [
            vec![0; TABLE],
            vec![65_535; TABLE + 1],
            table_of(certified.bundle.n, &certified.bundle.words),
            table_of(n, &words),
        ] {
            for call in Rewrite::CONVERSIONS {
                for (bundle, output_len) in [(bundle.as_slice(), 70_000), (&bundle, 0), (cut, 9)] {
                    let done = run.rewrite(call, bundle, output_len, &table);
                    let judged = run.judge(bundle, &table);
                    assert!(done.table == judged.table, "another table: {run}");
                }
            }
        }
    }
    run.finish(&[(0, 240), (3, 240), (6, 960), (21, 50)]);
}
