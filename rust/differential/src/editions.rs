//! A further reading of the rules for conversion besides the reference, kept as close to
//! their wording as possible; and bundles to convert.

use crate::bundles::Bundle;
use crate::files::MAX_BUNDLE_SIZE;
use crate::nets::{small_certified_in, Certified};
use crate::rng::Rng;
use crate::run::{refusal, Outcome, Run};

/// An accepted bundle in the new edition, whose fields have all words partial and all second
/// lists empty where it was in the old one.
pub fn in_new(bundle: &Bundle) -> Outcome<Vec<u8>> {
    let partial = || vec![false; bundle.words.len()];
    let bytes = Bundle {
        marks: bundle.marks.clone().or_else(|| Some(partial())),
        ..bundle.clone()
    }
    .bytes();
    if bytes.len() > MAX_BUNDLE_SIZE {
        return refusal(4, 0);
    }
    Ok(bytes)
}

/// An accepted bundle in the old edition, which has no marks and no second lists; 21 for the
/// first completed word.
pub fn in_old(bundle: &Bundle) -> Outcome<Vec<u8>> {
    let mut words = 0..bundle.words.len();
    if let Some(first) = words.find(|&word| bundle.is_completed(word)) {
        return refusal(21, first);
    }
    let bundle = Bundle {
        marks: None,
        ..bundle.clone()
    };
    Ok(bundle.bytes())
}

/// A bundle that has to be accepted, as often in the old edition as in the new one without a
/// completed word and in the new one with any marks.
pub fn small_certified(rng: &mut Rng) -> Certified {
    let kind = rng.below(3);
    let mut certified = small_certified_in(rng, kind == 2);
    if kind == 1 {
        make_new(&mut certified.bundle);
    }
    certified
}

/// Puts a bundle of the old edition into the new one.
pub fn make_new(bundle: &mut Bundle) {
    bundle.marks = Some(vec![false; bundle.words.len()]);
}

/// Notes what conversion has to tell apart in an accepted bundle.
pub fn note(run: &mut Run, certified: &Certified) {
    let bundle = &certified.bundle;
    run.note(match (bundle.is_new(), certified.completed().is_empty()) {
        (false, _) => "old",
        (true, true) => "new, no completed word",
        (true, false) => "new, completed words",
    });
    if certified.counts.by_weights > 0 {
        run.note("certificates of kind 1");
    }
}
