//! Conversion between the editions: what holds for all bundles, from answers of the calls
//! alone.

use differential::bundles::{Bundle, Certificate};
use differential::editions::{make_new, note, small_certified};
use differential::limits::MIDDLE;
use differential::logs::TABLE;
use differential::nets::Certified;
use differential::pruning::{contents, Idle};
use differential::rewriting::rewritten;
use differential::rewriting::Rewrite::{self, Prune, ToNew, ToOld};
use differential::run::{refusal, Run};
use differential::sales::MIDDLE_NEW;
use differential::screening::Kind;

/// A bundle that is accepted, in either edition, with completed words or without.
fn any_certified(run: &mut Run) -> Certified {
    let certified = match run.rng.below(24) {
        0 => MIDDLE.certified(&mut run.rng),
        1 => {
            let mut certified = MIDDLE.certified(&mut run.rng);
            make_new(&mut certified.bundle);
            certified
        }
        2 => MIDDLE_NEW.certified(&mut run.rng),
        _ => small_certified(&mut run.rng),
    };
    note(run, &certified);
    certified
}

/// Whether a bundle can be converted to the old edition.
fn has_old_form(certified: &Certified) -> bool {
    certified.completed().is_empty()
}

/// From old there and back gives the same bytes; so does a new bundle without a completed
/// word back and then forward. In the edition that is wanted a bundle is copied, so that
/// converting twice equals converting once.
#[test]
fn round_trips() {
    let mut run = Run::start("convert::round_trips");
    for _ in 0..run.cases(500) {
        let certified = any_certified(&mut run);
        let bytes = certified.bundle.bytes();
        let is_new = certified.bundle.is_new();
        let new = rewritten(&mut run, ToNew, &bytes);
        if is_new {
            assert_eq!(new, bytes, "{run}");
        }
        assert_eq!(rewritten(&mut run, ToNew, &new), new, "{run}");
        if !has_old_form(&certified) {
            continue;
        }
        let old = rewritten(&mut run, ToOld, &bytes);
        if !is_new {
            assert_eq!(old, bytes, "{run}");
        }
        assert_eq!(rewritten(&mut run, ToOld, &new), old, "{run}");
        assert_eq!(rewritten(&mut run, ToOld, &old), old, "{run}");
        assert_eq!(rewritten(&mut run, ToNew, &old), new, "{run}");
    }
    run.finish_with_classes(
        &[(0, 2_300)],
        &[
            ("old", 120),
            ("new, no completed word", 120),
            ("new, completed words", 60),
            ("certificates of kind 1", 80),
        ],
    );
}

/// Either result is accepted with the same four counts, and judging it leaves the same table,
/// which conversion leaves, too.
#[test]
fn judged_as_before() {
    let mut run = Run::start("convert::judged_as_before");
    for _ in 0..run.cases(400) {
        let certified = any_certified(&mut run);
        let bytes = certified.bundle.bytes();
        let noise: Vec<u16> = run.rng.items(TABLE + 20);
        let before = run.judge(&bytes, &noise);
        assert_eq!(before.outcome, Ok(certified.counts), "{run}");
        for call in Rewrite::CONVERSIONS {
            let done = run.rewrite(call, &bytes, call.room(&bytes), &noise);
            assert!(done.table == before.table, "another table: {run}");
            let Ok(length) = done.outcome else {
                assert!(call == ToOld && !has_old_form(&certified), "{run}");
                continue;
            };
            let after = run.judge(&done.output[..length], &noise);
            assert_eq!(after.outcome, Ok(certified.counts), "{bytes:?}, {run}");
            assert!(after.table == before.table, "another table: {run}");
        }
    }
    run.finish(&[(0, 1_700), (21, 40)]);
}

/// What stays, and what is added: marks 0 and empty second lists, and a byte for each word
/// and for each certificate of kind 1.
#[test]
fn what_stays() {
    let mut run = Run::start("convert::what_stays");
    for _ in 0..run.cases(400) {
        let certified = any_certified(&mut run);
        if !has_old_form(&certified) {
            continue;
        }
        let bytes = certified.bundle.bytes();
        let old_bytes = rewritten(&mut run, ToOld, &bytes);
        let new_bytes = rewritten(&mut run, ToNew, &bytes);
        let (old, new) = (contents(&old_bytes), contents(&new_bytes));
        assert_eq!(new_bytes[0], 128 + old_bytes[0], "{run}");
        let words = old.words.len();
        let longer = words + certified.counts.by_weights;
        assert_eq!(new_bytes.len(), old_bytes.len() + longer, "{run}");
        assert_eq!((&old.marks, &new.marks), (&None, &Some(vec![false; words])));
        let has_pairs = |certificate: &Certificate| !certificate.pairs().is_empty();
        assert!(!new.certificates.iter().any(has_pairs), "{run}");
        let same = Bundle {
            marks: None,
            ..new.clone()
        };
        assert_eq!(same, old, "{run}");
    }
    run.finish(&[(0, 500)]);
}

/// A bundle with completed words has no old form, and the first of them is named, before 3.
#[test]
fn completed_words() {
    let mut run = Run::start("convert::completed_words");
    for _ in 0..run.cases(300) {
        let certified = any_certified(&mut run);
        let bytes = certified.bundle.bytes();
        let done = run.rewrite(ToOld, &bytes, bytes.len(), &[0; TABLE]);
        match certified.completed().first() {
            Some(first) => {
                let spot = first.word.into();
                assert_eq!(done.outcome, refusal(21, spot), "{run}");
                let done = run.rewrite(ToOld, &bytes, 0, &[0; TABLE]);
                assert_eq!(done.outcome, refusal(21, spot), "{run}");
            }
            None => assert!(done.outcome.is_ok(), "{run}"),
        }
    }
    run.finish(&[(0, 150), (21, 80)]);
}

/// Every word is screened with the same answer, alone and joined to the other form.
#[test]
fn screened_as_before() {
    let mut run = Run::start("convert::screened_as_before");
    for _ in 0..run.cases(200) {
        let certified = any_certified(&mut run);
        let call = match certified.bundle.is_new() {
            true if has_old_form(&certified) => ToOld,
            true => continue,
            false => ToNew,
        };
        let bytes = certified.bundle.bytes();
        let result = rewritten(&mut run, call, &bytes);
        for kind in Kind::ALL {
            let word = kind.word(&mut run.rng, &certified.bundle);
            let answer = run.screen(&bytes, &word);
            assert_eq!(run.screen(&result, &word), answer, "{word:?}, {run}");
            let joined = run.screen_joined(&bytes, &result, &word);
            assert_eq!(joined, answer, "{word:?}, {run}");
        }
    }
    run.finish_with_classes(&[], &[("permitted", 500), ("stopped", 500)]);
}

/// Idle places can be left out before or after.
#[test]
fn pruned_before_or_after() {
    let mut run = Run::start("convert::pruned_before_or_after");
    for _ in 0..run.cases(300) {
        let mut certified = any_certified(&mut run);
        Idle::Anywhere.add(&mut run.rng, &mut certified, 2);
        let bytes = certified.bundle.bytes();
        for call in Rewrite::CONVERSIONS {
            if call == ToOld && !has_old_form(&certified) {
                continue;
            }
            let pruned = rewritten(&mut run, Prune, &bytes);
            let before = rewritten(&mut run, call, &pruned);
            let converted = rewritten(&mut run, call, &bytes);
            let after = rewritten(&mut run, Prune, &converted);
            assert_eq!(before, after, "{call:?}, {bytes:?}, {run}");
        }
    }
    run.finish(&[(0, 1_800)]);
}
