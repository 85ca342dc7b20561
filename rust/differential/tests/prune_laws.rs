//! Pruning: what holds for all bundles, from answers of the calls alone.

use differential::bundles::{Bundle, Certificate, MAX_PLACES};
use differential::limits::MIDDLE;
use differential::logs::{random_word, TABLE};
use differential::nets::{certified, completed, small_certified, small_log, Certified, Step};
use differential::pruning::{
    contents, idle_count, insert, is_named, name_lowest, prune_accepted, Idle, LEAVES_EARLIER,
    WITHOUT_IDLE, WITH_IDLE,
};
use differential::run::Run;
use differential::screening::{stopped, Kind};
use reference::Screened;
use std::collections::BTreeSet;

/// A bundle that is accepted: mostly with places that no certificate names.
fn any_certified(run: &mut Run) -> Certified {
    loop {
        let mut certified = match run.rng.below(12) {
            0 => MIDDLE.certified(&mut run.rng),
            _ => small_certified(&mut run.rng),
        };
        if run.rng.below(3) == 0 {
            name_lowest(&mut certified);
        }
        let idle = run.rng.choose(&Idle::ALL);
        let count = run.rng.choose(&[0, 1, 2, 3, 10, 64]);
        idle.add(&mut run.rng, &mut certified, count);
        if certified.bundle.has_allowed_length() {
            return certified;
        }
    }
}

/// The result is accepted with the same four counts, and judging it leaves the same table;
/// it is never longer, and pruning it changes nothing.
#[test]
fn judged_as_before() {
    let mut run = Run::start("judged_as_before");
    for _ in 0..run.cases(600) {
        let Certified { bundle, counts, .. } = any_certified(&mut run);
        let bytes = bundle.bytes();
        let noise: Vec<u16> = run.rng.items(TABLE + 20);
        let before = run.judge(&bytes, &noise);
        assert_eq!(before.outcome, Ok(counts), "{run}");

        let done = run.prune(&bytes, bytes.len(), &noise);
        assert!(done.table == before.table, "another table: {run}");
        let length = done.outcome.expect("accepted, and never longer");
        let result = &done.output[..length];
        let after = run.judge(result, &noise);
        assert_eq!(after.outcome, Ok(counts), "{bytes:?}, {run}");
        assert!(after.table == before.table, "another table: {run}");

        let again = run.prune(result, length, &noise);
        assert_eq!(again.outcome, Ok(length), "{bytes:?}, {run}");
        assert!(again.output == result, "{bytes:?}, {run}");
        run.note(if length < bytes.len() {
            "shorter"
        } else {
            assert!(result == bytes, "{bytes:?}, {run}");
            "the same"
        });
    }
    run.finish_with_classes(&[(0, 2_400)], &[("shorter", 300), ("the same", 10)]);
}

/// What stays: edition and n, the words and their marks, the certificates of kind 1 with
/// their pairs and what the others say, each place that is named, in the old order, and no
/// other. Without completed words there is always one.
#[test]
fn what_stays() {
    let mut run = Run::start("what_stays");
    for _ in 0..run.cases(600) {
        let Certified { bundle: old, .. } = any_certified(&mut run);
        let bytes = old.bytes();
        let result = prune_accepted(&mut run, &bytes);
        let new = contents(&result);
        assert!(new.bytes() == result, "{bytes:?}, {run}");
        assert_eq!((new.n, &new.words), (old.n, &old.words), "{run}");
        assert_eq!(new.marks, old.marks, "{run}");
        assert_eq!(idle_count(&new), 0, "{bytes:?}, {run}");
        let left = old.places.len() - idle_count(&old);
        assert_eq!(new.places.len(), left, "{bytes:?}, {run}");
        // Where completed words return to it, every event can be permitted for ever.
        let needs_places = completed(&old).is_empty();
        assert!(left > 0 || !needs_places, "no place is left: {run}");
        run.note(if old.is_new() { "new" } else { "old" });
        assert_eq!(new.certificates.len(), old.certificates.len(), "{run}");

        let mut numbers = BTreeSet::new();
        for (new_certificate, old_certificate) in new.certificates.iter().zip(&old.certificates) {
            match (old_certificate, new_certificate) {
                (Certificate::Place(from), Certificate::Place(to)) => {
                    numbers.insert((*from, *to));
                    let places = (
                        &old.places[usize::from(*from)],
                        &new.places[usize::from(*to)],
                    );
                    assert_eq!(places.0, places.1, "{bytes:?}, {run}");
                }
                (kind_1, other) => assert_eq!(kind_1, other, "{bytes:?}, {run}"),
            }
        }
        // One new number for each old one that is named, in the same order.
        let named = (0u8..).take(old.places.len());
        let named = named.filter(|&place| is_named(&old, place.into()));
        assert!(numbers.into_iter().eq(named.zip(0..)), "{bytes:?}, {run}");
    }
    run.finish_with_classes(&[(0, 600)], &[("old", 200), ("new", 200)]);
}

/// Each prefix of the log with each event behind it, once.
fn continued_prefixes(bundle: &Bundle) -> BTreeSet<Vec<u8>> {
    let mut all = BTreeSet::new();
    for word in bundle
        .words
        .iter()
        .map(Vec::as_slice)
        .chain([[].as_slice()])
    {
        for end in 0..=word.len() {
            for event in 0..bundle.n as u8 {
                all.insert([&word[..end], &[event]].concat());
            }
        }
    }
    all
}

/// Every prefix of the log with one event added gets the same yes or no, and is stopped at
/// that event if it is stopped.
#[test]
fn prefixes_of_the_log() {
    let mut run = Run::start("prefixes_of_the_log");
    for _ in 0..run.cases(60) {
        let Certified { bundle, .. } = any_certified(&mut run);
        let bytes = bundle.bytes();
        let result = prune_accepted(&mut run, &bytes);
        for word in continued_prefixes(&bundle) {
            let last = word.len() - 1;
            let answers = [&bytes, &result].map(|bundle| run.screen(bundle, &word));
            match answers {
                [Ok(Screened::Permitted), after] => {
                    assert_eq!(after, Ok(Screened::Permitted), "{word:?}, {bytes:?}, {run}");
                }
                [_, after] => assert!(
                    matches!(after, Ok(Screened::Stopped { position, .. }) if position == last),
                    "{after:?}, {word:?}, {bytes:?}, {run}"
                ),
            }
        }
    }
    run.finish_with_classes(&[], &[("permitted", 300), ("stopped", 500)]);
}

/// An accepted bundle with a certificate of kind 1, and with idle places: those of another
/// net for the same log, which often refuse more.
fn two_nets_for_a_log(run: &mut Run) -> Certified {
    loop {
        let (n, words) = small_log(&mut run.rng);
        let nets = [words.clone(), words].map(|words| certified(&mut run.rng, n, words));
        let [Some(mut one), Some(other)] = nets else {
            continue;
        };
        let room = MAX_PLACES - one.bundle.places.len();
        for place in other.bundle.places.into_iter().take(room) {
            let at = run.rng.within(0..=one.bundle.places.len());
            insert(&mut one.bundle, at, place);
        }
        if one.counts.by_weights > 0 && one.bundle.has_allowed_length() {
            return one;
        }
    }
}

/// A word that leaves the log with a step of a certificate of kind 1, which no net for this
/// log refuses, and then goes on.
fn word_beyond_weights(run: &mut Run, certified: &Certified) -> Vec<u8> {
    let certificates = certified.bundle.certificates.iter();
    let steps = certificates.zip(certified.wrong_continuations());
    let by_weights = steps.filter(|(kind, _)| matches!(kind, Certificate::Weights { .. }));
    let steps: Vec<Step> = by_weights.map(|(_, step)| step).collect();
    let Step { row, event } = run.rng.choose(&steps);

    let counts = &certified.rows[row].counts;
    let count = |prefix: &[u8], event| prefix.iter().filter(|&&e| usize::from(e) == event).count();
    let has_counts = |prefix: &[u8]| {
        counts
            .iter()
            .enumerate()
            .all(|(e, &c)| count(prefix, e) == c)
    };
    let words = &certified.bundle.words;
    let mut prefixes = words
        .iter()
        .flat_map(|word| (0..=word.len()).map(|end| &word[..end]));
    let prefix = prefixes.find(|prefix| has_counts(prefix));
    let mut word = prefix
        .expect("a prefix with the counts of the row")
        .to_vec();
    word.push(event as u8);
    word.extend(random_word(&mut run.rng, certified.bundle.n, 1..=4));
    word
}

/// Whatever word was permitted is permitted afterwards; some that leave the log are
/// permitted only then.
#[test]
fn words_that_were_permitted() {
    let mut run = Run::start("words_that_were_permitted");
    for _ in 0..run.cases(500) {
        let certified = two_nets_for_a_log(&mut run);
        let bytes = certified.bundle.bytes();
        let result = prune_accepted(&mut run, &bytes);
        let mut words = Kind::ALL
            .map(|kind| kind.word(&mut run.rng, &certified.bundle))
            .to_vec();
        words.extend((0..30).map(|_| word_beyond_weights(&mut run, &certified)));
        for word in words {
            let answers = [&bytes, &result].map(|bundle| run.screen(bundle, &word));
            let stops = answers.map(|answer| match answer.expect("sound bundles and events") {
                Screened::Permitted => word.len(),
                Screened::Stopped { position, .. } => position,
            });
            assert!(stops[0] <= stops[1], "{word:?}, {bytes:?}, {run}");
            if stops[0] == word.len() {
                run.note("permitted before");
            } else if stops[1] == word.len() {
                run.note("permitted only afterwards");
            }
        }
    }
    run.finish_with_classes(
        &[(0, 37_500)],
        &[
            ("permitted before", 2_000),
            ("permitted only afterwards", 5),
        ],
    );
}

/// A word that the idle place stops and the others permit.
#[test]
fn a_word_that_leaves_the_log_earlier() {
    let mut run = Run::start("a_word_that_leaves_the_log_earlier");
    let result = prune_accepted(&mut run, &WITH_IDLE);
    assert_eq!(result, WITHOUT_IDLE, "{run}");
    let before = run.screen(&WITH_IDLE, &LEAVES_EARLIER);
    assert_eq!(before, stopped(3, 0, 1), "{run}");
    let after = run.screen(&result, &LEAVES_EARLIER);
    assert_eq!(after, Ok(Screened::Permitted), "{run}");
    // It leaves the log with an event that no place can refuse: both permit it so far.
    for bundle in [WITH_IDLE.as_slice(), &result] {
        let left = run.screen(bundle, &LEAVES_EARLIER[..3]);
        assert_eq!(left, Ok(Screened::Permitted), "{run}");
    }
    run.finish_with_classes(&[(0, 5)], &[("permitted", 3), ("stopped", 1)]);
}
