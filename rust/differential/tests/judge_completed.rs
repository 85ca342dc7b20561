//! Judging in the new edition: completed words and pairs.

use differential::bundles::{Bundle, Certificate, Field, Pair, Place};
use differential::bundles::{MAX_PAIRS, SAMPLE_A, SAMPLE_NEW};
use differential::judging::judge;
use differential::logs::TABLE;
use differential::nets::{certified, small_certified_in};
use differential::run::{refusal, Run};
use differential::sales::one_event;
use std::collections::HashSet;

/// Small bundles of the new edition, with what they have to show.
#[test]
fn accepted_bundles() {
    let mut run = Run::start("judge_completed::accepted_bundles");
    for _ in 0..run.cases(1_500) {
        let certified = small_certified_in(&mut run.rng, true);
        let bundle = &certified.bundle;
        let outcome = judge(&mut run, &bundle.bytes());
        assert_eq!(outcome, Ok(certified.counts), "{bundle:?}, {run}");
        note_words(&mut run, bundle);
        for certificate in &bundle.certificates {
            if let Certificate::Weights { pairs, .. } = certificate {
                note_pairs(&mut run, pairs);
            }
        }
        if bundle.places.is_empty() {
            run.note("no place");
        }
    }
    run.finish_with_classes(
        &[(0, 1_500)],
        &[
            ("no completed word", 50),
            ("a completed word that is empty", 300),
            ("a completed word that begins another", 300),
            ("a word both completed and partial", 100),
            ("no pair", 30),
            ("a weight of 0", 200),
            ("a weight above 0", 1_000),
            ("a weight below 0", 1_000),
            ("the least weight", 200),
            ("the largest weight", 200),
            ("a repeated word", 1_000),
            ("64 pairs", 200),
            ("no place", 20),
        ],
    );
}

fn note_words(run: &mut Run, bundle: &Bundle) {
    let (completed, partial): (Vec<_>, Vec<_>) =
        (0..bundle.words.len()).partition(|&word| bundle.is_completed(word));
    let words = |numbers: &[usize]| -> Vec<Vec<u8>> {
        let words = numbers.iter().map(|&number| bundle.words[number].clone());
        words.collect()
    };
    let (completed, partial) = (words(&completed), words(&partial));
    let begins = |word: &Vec<u8>| {
        let mut others = bundle.words.iter();
        others.any(|other| other.len() > word.len() && other.starts_with(word))
    };
    if completed.is_empty() {
        run.note("no completed word");
    }
    if completed.iter().any(Vec::is_empty) {
        run.note("a completed word that is empty");
    }
    if completed.iter().any(begins) {
        run.note("a completed word that begins another");
    }
    if completed.iter().any(|word| partial.contains(word)) {
        run.note("a word both completed and partial");
    }
}

fn note_pairs(run: &mut Run, pairs: &[Pair]) {
    let words: HashSet<u8> = pairs.iter().map(|pair| pair.word).collect();
    for (class, is_so) in [
        ("no pair", pairs.is_empty()),
        ("a weight of 0", pairs.iter().any(|pair| pair.weight == 0)),
        ("a weight above 0", pairs.iter().any(|pair| pair.weight > 0)),
        ("a weight below 0", pairs.iter().any(|pair| pair.weight < 0)),
        (
            "the least weight",
            pairs.iter().any(|pair| pair.weight == -32_768),
        ),
        (
            "the largest weight",
            pairs.iter().any(|pair| pair.weight == 32_767),
        ),
        ("a repeated word", words.len() < pairs.len()),
        ("64 pairs", pairs.len() == MAX_PAIRS),
    ] {
        if is_so {
            run.note(class);
        }
    }
}

/// Marks that are all 0 and lists without pairs: the new edition of an old bundle is
/// answered with the same counts, and leaves the same table.
#[test]
fn old_and_new() {
    let mut run = Run::start("old_and_new");
    for _ in 0..run.cases(300) {
        let old = small_certified_in(&mut run.rng, false);
        let mut new = old.bundle.clone();
        new.marks = Some(vec![false; new.words.len()]);
        let noise: Vec<u16> = run.rng.items(TABLE + 3);
        let answers = [&old.bundle, &new].map(|bundle| run.judge(&bundle.bytes(), &noise));
        let [before, after] = answers;
        assert_eq!(before.outcome, Ok(old.counts), "{run}");
        assert_eq!(after.outcome, Ok(old.counts), "{run}");
        assert!(before.table == after.table, "another table: {run}");
    }
    run.finish(&[(0, 600)]);
}

/// Every first byte, with what follows in the old edition or in the new: 1 to 12 and 129
/// to 140 are read on, and every other is out of range.
#[test]
fn every_first_byte() {
    let mut run = Run::start("every_first_byte");
    for first in 0..=255 {
        for sample in [SAMPLE_A.as_slice(), &SAMPLE_NEW, &[0], &[0, 0, 0]] {
            let mut bytes = sample.to_vec();
            bytes[0] = first;
            let outcome = judge(&mut run, &bytes);
            let is_edition = (1..=12).contains(&first) || (129..=140).contains(&first);
            assert_eq!(outcome == refusal(7, 0), !is_edition, "{first}, {run}");
        }
    }
    run.finish(&[(0, 2), (7, 4 * 232)]);
}

/// The number of a pair names the word: it is refused for a partial one though its events
/// stand elsewhere as completed, of whatever weight, after the certificate is read whole.
#[test]
fn the_number_names_the_word() {
    let mut run = Run::start("the_number_names_the_word");
    for marks in [[true, false], [false, true], [true, true], [false, false]] {
        for word in 0..=4 {
            for weight in [0, 1] {
                // The word 0 three times; the last is completed, so that the weights add up.
                let rest = Pair {
                    word: 2,
                    weight: 1 - weight,
                };
                let mut bundle = one_event(1, 1, vec![Pair { word, weight }, rest]);
                bundle.words = vec![vec![0]; 3];
                let marks = [marks.as_slice(), &[true]].concat();
                bundle.marks = Some(marks.clone());
                let layout = bundle.layout();
                let spot = layout.all(Field::PairWord)[0].start;
                let mark = marks.get(usize::from(word));
                let expected = match mark {
                    None => refusal(7, spot),
                    Some(true) => Ok(2),
                    Some(false) => refusal(12, 0),
                };
                let outcome = judge(&mut run, &layout.bytes);
                let rows = outcome.map(|counts| counts.rows);
                assert_eq!(rows, expected, "{marks:?}, {word}, {weight}, {run}");
                let cut = &layout.bytes[..layout.bytes.len() - 1];
                let expected = match mark {
                    None => refusal(7, spot),
                    Some(_) => refusal(6, layout.bytes.len() - 2),
                };
                assert_eq!(judge(&mut run, cut), expected, "{run}");
            }
        }
    }
    run.finish(&[(0, 16), (6, 24), (7, 32), (12, 8)]);
}

/// The lowest place is named whatever the word, and one that does not fit before it.
#[test]
fn lowest_place() {
    let mut run = Run::start("lowest_place");
    // The words 0 and 1, both completed. Event 0 adds a token to the first place, event 1
    // to the second, and the third needs one more than it has.
    let adds = |ins: [u16; 2]| Place {
        m: 0,
        ins: ins.to_vec(),
        outs: vec![0; 2],
    };
    let misfit = Place {
        outs: vec![1, 0],
        ..adds([1, 0])
    };
    let keeps = adds([0, 0]);
    for (places, expected) in [
        (vec![adds([1, 0]), adds([0, 1])], (20, 0)),
        (vec![adds([0, 1]), adds([1, 0])], (20, 0)),
        (vec![keeps.clone(), adds([0, 1]), adds([1, 0])], (20, 1)),
        (vec![adds([0, 1]), keeps.clone(), misfit.clone()], (10, 2)),
        (vec![misfit.clone(), adds([0, 1])], (10, 0)),
        (vec![keeps.clone(), keeps, adds([1, 1])], (20, 2)),
    ] {
        let mut sample = certified(&mut run.rng, 2, vec![vec![0], vec![1]]).expect("a small log");
        sample.bundle.marks = Some(vec![true, true]);
        sample.bundle.places = places;
        let outcome = judge(&mut run, &sample.bundle.bytes());
        assert_eq!(outcome, refusal(expected.0, expected.1), "{run}");
    }
    run.finish(&[(10, 2), (20, 4)]);
}
