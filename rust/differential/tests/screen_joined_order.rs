//! Screening with two nets: several faults at once, and which of them is named.

use differential::bundles::{five_long_words, SAMPLE_A, SAMPLE_E};
use differential::files::MAX_BUNDLE_SIZE;
use differential::logs::MAX_EVENTS;
use differential::run::{refusal, Outcome, Run};
use differential::screening::{screen_joined, stopped, MAX_WORD_EVENTS, ONE_FOLLOWS};
use reference::{Refusal, Screened};

/// A bundle, and its event count or how it is refused by itself.
type Side = (Vec<u8>, Outcome);

/// Sound bundles over one, two and three events, and one bundle or more for each refusal.
fn sides() -> Vec<Side> {
    let too_long = [SAMPLE_A.as_slice(), &[0; MAX_BUNDLE_SIZE]].concat();
    vec![
        (SAMPLE_A.to_vec(), Ok(2)),
        (ONE_FOLLOWS.to_vec(), Ok(2)),
        (vec![2, 0, 0], Ok(2)),
        (SAMPLE_E.to_vec(), Ok(1)),
        (vec![3, 0, 0, 99], Ok(3)),
        (Vec::new(), refusal(4, 0)),
        (too_long, refusal(4, 0)),
        (SAMPLE_A[..28].to_vec(), refusal(6, 27)),
        (vec![2], refusal(6, 1)),
        (vec![3, 1, 2, 0], refusal(6, 4)),
        (vec![0, 0, 0], refusal(7, 0)),
        (vec![13], refusal(7, 0)),
        (vec![1, 1, 2, 0, 1, 0], refusal(7, 4)),
        (vec![2, 0, 65], refusal(7, 2)),
        (five_long_words(2), refusal(8, 2 + 4 * 256)),
    ]
}

/// Words: permitted, stopped, with an event that is not there in some nets or in none,
/// and too long.
fn words() -> Vec<Vec<u8>> {
    vec![
        vec![],
        vec![0, 0],
        vec![1, 0],
        vec![0, 1, 1],
        vec![0, 1, 2],
        vec![1, 0, 0, 3],
        vec![255],
        vec![0; MAX_WORD_EVENTS + 1],
        vec![77; MAX_WORD_EVENTS + 1],
    ]
}

/// The first refusal in the order line: 14, the first bundle's, the second's, 19, 15.
fn first_cause(first: &Side, second: &Side, word: &[u8]) -> Outcome<()> {
    if word.len() > MAX_WORD_EVENTS {
        return refusal(14, MAX_WORD_EVENTS);
    }
    let n = first.1?;
    if n != second.1? {
        return refusal(19, 0);
    }
    match word.iter().position(|&event| usize::from(event) >= n) {
        Some(position) => refusal(15, position),
        None => Ok(()),
    }
}

/// Every two bundles with every word, so that each two causes meet.
#[test]
fn causes_at_once() {
    let mut run = Run::start("causes_at_once");
    let (sides, words) = (sides(), words());
    for first in &sides {
        for second in &sides {
            for word in &words {
                let outcome = screen_joined(&mut run, &first.0, &second.0, word);
                let expected = first_cause(first, second, word);
                assert_eq!(outcome.map(|_| ()), expected, "{run}");
            }
        }
    }
    // Of 15 bundles two are of the wrong length, three end early, four have a wrong value
    // and one has too many events. The first of two counts, and the second behind each of
    // the five sound ones. Two words are too long.
    let refused = |bundles: usize| bundles * (15 + 5) * 7;
    // Three sound bundles have two events, and there is one each with one and with three.
    let same = 3 * 3 + 1 + 1;
    // With two events three words have an event that is not there, with one event five and
    // with three two.
    let wrong = 9 * 3 + 5 + 2;
    run.finish_with_classes(
        &[
            (4, refused(2)),
            (6, refused(3)),
            (7, refused(4)),
            (8, refused(1)),
            (14, 15 * 15 * 2),
            (15, wrong),
            (19, (5 * 5 - same) * 7),
        ],
        &[("permitted", 20), ("stopped", 10)],
    );
}

/// The refusals of a call that has every cause, as they are taken away one by one.
#[test]
fn one_cause_after_the_other() {
    let mut run = Run::start("one_cause_after_the_other");
    let too_long = vec![9; MAX_WORD_EVENTS + 1];
    let wrong = [1, 9];
    let other_events: &[u8] = &[5, 0, 0];
    let five_words = five_long_words(2);
    for (first, second, word, number, spot) in [
        (
            [].as_slice(),
            [].as_slice(),
            too_long.as_slice(),
            14,
            65_535,
        ),
        (&[], &[], &wrong, 4, 0),
        (&SAMPLE_A[..10], &[], &wrong, 6, 9),
        (&[2, 1, 1, 2], &[], &wrong, 7, 3),
        (&five_words, &[], &wrong, 8, 1_026),
        (&SAMPLE_A, &[], &wrong, 4, 0),
        (&SAMPLE_A, &[5, 0], &wrong, 6, 2),
        (&SAMPLE_A, &[5, 0, 77], &wrong, 7, 2),
        (&SAMPLE_A, &five_words, &wrong, 8, 1_026),
        (&SAMPLE_A, other_events, &wrong, 19, 0),
        (&SAMPLE_A, &ONE_FOLLOWS, &wrong, 15, 1),
    ] {
        let outcome = screen_joined(&mut run, first, second, word);
        assert_eq!(outcome, Err(Refusal { number, spot }), "{run}");
    }
    let outcome = screen_joined(&mut run, &SAMPLE_A, &ONE_FOLLOWS, &wrong[..1]);
    assert_eq!(outcome, stopped(0, 2, 1), "{run}");
    run.finish(&[
        (0, 1),
        (4, 2),
        (6, 2),
        (7, 2),
        (8, 2),
        (14, 1),
        (15, 1),
        (19, 1),
    ]);
}

/// Every two event counts, with words whose events are below both, below one or below none.
#[test]
fn event_counts() {
    let mut run = Run::start("event_counts");
    let mut same = 0;
    for first in 1..=MAX_EVENTS as u8 {
        for second in 1..=MAX_EVENTS as u8 {
            let (lower, higher) = (first.min(second), first.max(second));
            for event in [0, lower - 1, lower, higher - 1, higher, 12, 255] {
                let outcome = screen_joined(&mut run, &[first, 0, 0], &[second, 0, 0], &[0, event]);
                let expected = if first != second {
                    refusal(19, 0)
                } else if event >= first {
                    refusal(15, 1)
                } else {
                    same += 1;
                    Ok(Screened::Permitted)
                };
                assert_eq!(outcome, expected, "{first} {second} {event}, {run}");
            }
        }
    }
    // With equal counts three of the seven events are below: 0, and twice the last.
    assert_eq!(same, 12 * 3);
    run.finish(&[(0, 12 * 3), (15, 12 * 4), (19, 12 * 11 * 7)]);
}
