//! Screening of the new edition: its fields in their order, and nets that do not obey.

use differential::bundle_faults::{refusal_of_cut, write_value};
use differential::bundles::{unbalanced, Bundle, Field, SAMPLE_A, SAMPLE_NEW};
use differential::judging::judge;
use differential::run::{refusal, Run};
use differential::sales::{Sales, LARGEST_NEW};
use differential::screening::{any_net, screen, screen_joined, stopped, two_nets};
use reference::Screened;

/// A log of 1,003 events.
const SIZE: Sales = Sales {
    n: 3,
    sales: 100,
    words: 8,
    events: 1_003,
    places: 6,
    terms: 101,
    pairs: 101,
};

/// The edition and the marks change no answer, whether or not the net obeys.
#[test]
fn marks_make_no_difference() {
    let mut run = Run::start("marks_make_no_difference");
    for _ in 0..run.cases(400) {
        let (bundle, word) = any_net(&mut run.rng);
        let count = bundle.words.len();
        let any: Vec<bool> = (0..count).map(|_| run.rng.below(2) == 0).collect();
        let all = [
            None,
            Some(vec![false; count]),
            Some(vec![true; count]),
            Some(any),
        ];
        let answers = all.map(|marks| {
            let bundle = Bundle {
                marks,
                ..bundle.clone()
            };
            screen(&mut run, &bundle.bytes(), &word)
        });
        assert!(answers.iter().all(|answer| *answer == answers[0]), "{run}");
    }
    run.finish_with_classes(&[(0, 1_600)], &[("permitted", 200), ("stopped", 200)]);
}

/// Two nets of any editions, joined both ways round: the event count is compared, and not
/// the first byte.
#[test]
fn joined_editions() {
    let mut run = Run::start("joined_editions");
    for _ in 0..run.cases(400) {
        let (first, second, word) = two_nets(&mut run.rng);
        run.note(match (first.is_new(), second.is_new()) {
            (true, true) => "both new",
            (false, false) => "both old",
            _ => "an old and a new one",
        });
        let [first, second] = [first, second].map(|bundle| bundle.bytes());
        let one = screen_joined(&mut run, &first, &second, &word);
        let other = screen_joined(&mut run, &second, &first, &word);
        let is_permitted = |outcome| outcome == Ok(Screened::Permitted);
        assert_eq!(is_permitted(one), is_permitted(other), "{run}");
    }
    let mixed = [SAMPLE_A.as_slice(), &SAMPLE_NEW];
    assert_eq!(
        screen_joined(&mut run, mixed[0], mixed[1], &[9]),
        refusal(19, 0),
        "{run}"
    );
    // 3 and 128 + 3 are the same event count.
    let old = [3, 0, 0];
    let outcome = screen_joined(&mut run, &old, &SAMPLE_NEW, &[0, 0]);
    assert_eq!(outcome, stopped(1, 0, 1), "{run}");
    run.finish_with_classes(
        &[(0, 801), (19, 1)],
        &[
            ("both new", 40),
            ("both old", 40),
            ("an old and a new one", 100),
        ],
    );
}

/// The judge refuses it with 20, and screening answers.
#[test]
fn a_net_that_does_not_obey() {
    let mut run = Run::start("a_net_that_does_not_obey");
    let bundle = unbalanced();
    assert_eq!(judge(&mut run, &bundle), refusal(20, 1), "{run}");
    for (word, expected) in [
        ([0, 1, 2].as_slice(), Ok(Screened::Permitted)),
        // The token that is left over.
        (&[0, 1, 1], Ok(Screened::Permitted)),
        (&[0, 1, 1, 1], stopped(3, 1, 1)),
        (&[1], stopped(0, 1, 1)),
        (&[0, 0], stopped(1, 0, 1)),
    ] {
        assert_eq!(screen(&mut run, &bundle, word), expected, "{run}");
    }
    run.finish_with_classes(&[(20, 1)], &[("permitted", 2), ("stopped", 3)]);
}

/// Any two faults up to the last place, with all bytes or only some: 8 comes before the mark,
/// the mark before the events, and a place that does not obey is no fault.
#[test]
fn pairs_of_faults() {
    let mut run = Run::start("screen_completed::pairs_of_faults");
    let layout = SIZE.certified(&mut run.rng).bundle.layout();
    let field = |kind, number: usize| layout.all(kind)[number].clone();
    let last = SIZE.words - 1;
    let length = field(Field::Length, last);
    let mark = field(Field::Mark, last);
    let last_word = mark.end..field(Field::PlaceCount, 0).start;
    let too_long = last_word.len() + 1_025 - SIZE.events;
    let faults = [
        (field(Field::EventCount, 0), 141, 7),
        (field(Field::Mark, 0), 2, 7),
        (field(Field::Event, 0), 3, 7),
        (field(Field::Mark, 3), 128, 7),
        (length, too_long, 8),
        (mark, 255, 7),
        (last_word.start..last_word.start + 1, 3, 7),
        (field(Field::PlaceCount, 0), 65, 7),
    ];
    for first in 0..faults.len() {
        for second in first..faults.len() {
            let mut bytes = layout.bytes.clone();
            // In any case a place that does not obey.
            write_value(&mut bytes, &field(Field::In, 0), 12_345);
            for (range, value, _) in [&faults[second], &faults[first]] {
                write_value(&mut bytes, range, *value);
            }
            let (range, _, number) = &faults[first];
            let any = run.rng.within(1..=bytes.len());
            for length in [bytes.len(), any, range.end, (range.end - 1).max(1)] {
                let expected = if length < range.end {
                    Err(refusal_of_cut(&layout, length))
                } else {
                    refusal(*number, range.start)
                };
                for word in [[0, 1].as_slice(), &[], &[9]] {
                    let outcome = screen(&mut run, &bytes[..length], word);
                    assert_eq!(outcome, expected, "{length} bytes, {run}");
                }
            }
        }
    }
    run.finish(&[(6, 50), (7, 200), (8, 20)]);
}

/// The net of the largest bundle, and the longest words: it returns after every sale.
#[test]
fn longest_sales() {
    let mut run = Run::start("longest_sales");
    let bundle = LARGEST_NEW.certified(&mut run.rng).bundle.bytes();
    let sales = [0, 1].repeat(32_767);
    let outcome = screen(&mut run, &bundle, &sales);
    assert_eq!(outcome, Ok(Screened::Permitted), "{run}");
    let with_one_more = [sales.as_slice(), &[2]].concat();
    let outcome = screen(&mut run, &bundle, &with_one_more);
    assert_eq!(outcome, Ok(Screened::Permitted), "{run}");
    let broken = [&sales[1..], &[2]].concat();
    let outcome = screen(&mut run, &bundle, &broken);
    assert!(
        matches!(outcome, Ok(Screened::Stopped { position: 0, .. })),
        "{run}"
    );
    run.finish_with_classes(&[(0, 3)], &[("permitted", 2), ("stopped", 1)]);
}
