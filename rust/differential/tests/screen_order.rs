//! Screening: several faults at once, and which of them is named.

use differential::bundle_faults::{refusal_of_cut, write_value};
use differential::bundles::{Field, Layout, SAMPLE_A, SAMPLE_E, SAMPLE_H};
use differential::files::MAX_BUNDLE_SIZE;
use differential::limits::Size;
use differential::run::{refusal, Outcome, Run};
use differential::screening::{screen, stopped, MAX_WORD_EVENTS};
use reference::{Refusal, Screened};
use std::ops::Range;

/// A log of 1,020 events and 243 rows, with four words of zeros at the end.
const SIZE: Size = Size {
    n: 2,
    zeros: 240,
    words: 6,
    events: 1_020,
    places: 5,
    terms: 3 * 239,
};

/// A fault that leaves the fields where they are.
struct Fault {
    range: Range<usize>,
    value: usize,
    number: u8,
}

/// Faults in the order of the bundle, up to its last place.
fn faults(run: &mut Run, layout: &Layout) -> Vec<Fault> {
    let field = |kind, number: usize| layout.all(kind)[number].clone();
    let wrong = |range, value| Fault {
        range,
        value,
        number: 7,
    };
    let last_length = field(Field::Length, SIZE.words - 1);
    let place_count = field(Field::PlaceCount, 0);
    let last_word = last_length.end..place_count.start;
    let any_event = run.rng.within(last_word.start..=last_word.end - 1);
    vec![
        wrong(field(Field::EventCount, 0), 13),
        wrong(field(Field::Event, 0), SIZE.n),
        wrong(field(Field::Event, 1), 255),
        Fault {
            // Four events are left besides those that the word has.
            range: last_length,
            value: last_word.len() + 5,
            number: 8,
        },
        wrong(any_event..any_event + 1, SIZE.n),
        wrong(place_count, 65),
    ]
}

/// Words that are permitted or stopped, and words with events that are not there,
/// also behind a refused step, with the position of the first such event.
fn words() -> Vec<(Vec<u8>, Option<usize>)> {
    let stopped = vec![1, 1, 0, 0];
    let with = |positions: &[usize]| {
        let mut word = stopped.clone();
        for &position in positions {
            word[position] = 2;
        }
        (word, positions.first().copied())
    };
    vec![
        (vec![0, 0, 1], None),
        (Vec::new(), None),
        with(&[]),
        with(&[0]),
        with(&[3]),
        with(&[1, 2]),
        with(&[0, 1, 2, 3]),
        (vec![255], Some(0)),
    ]
}

/// Any two faults, with all bytes or with only some of them, and any word: the
/// first fault in the order of the bundle is named, then the word's.
#[test]
fn pairs_of_faults() {
    let mut run = Run::start("screen_order::pairs_of_faults");
    for _ in 0..run.cases(4) {
        let layout = SIZE.certified(&mut run.rng).bundle.layout();
        let faults = faults(&mut run, &layout);
        for first in 0..faults.len() {
            for second in first..faults.len() {
                let mut bytes = layout.bytes.clone();
                for fault in [&faults[second], &faults[first]] {
                    write_value(&mut bytes, &fault.range, fault.value);
                }
                let end = faults[first].range.end;
                let any = run.rng.within(1..=layout.bytes.len());
                for length in [layout.bytes.len(), any, end, end - 1] {
                    let expected = if length == 0 {
                        refusal(4, 0)
                    } else if length < end {
                        Err(refusal_of_cut(&layout, length))
                    } else {
                        refusal(faults[first].number, faults[first].range.start)
                    };
                    for (word, _) in words() {
                        let outcome = screen(&mut run, &bytes[..length], &word);
                        assert_eq!(outcome, expected, "{length} bytes, {word:?}, {run}");
                    }
                }
            }
        }
    }
    run.finish(&[(4, 100), (6, 100), (7, 1_000), (8, 100)]);
}

/// Without a fault in the bundle the word's first wrong event is named, before any
/// step is replayed.
#[test]
fn events_come_before_the_replay() {
    let mut run = Run::start("events_come_before_the_replay");
    for _ in 0..run.cases(20) {
        let bytes = SIZE.certified(&mut run.rng).bundle.bytes();
        for (word, wrong) in words() {
            let outcome = screen(&mut run, &bytes, &word);
            match wrong {
                Some(position) => assert_eq!(outcome, refusal(15, position), "{run}"),
                None => assert!(outcome.is_ok(), "{word:?}, {run}"),
            }
        }
    }
    // Sample A stops the word 1 0 at its second event.
    for event in 2..=255 {
        for (word, position) in [
            (vec![event], 0),
            (vec![event, 1, 0], 0),
            (vec![1, 0, event], 2),
            (vec![1, 0, 0, event, 0, event], 3),
            ([vec![1; 1_000], vec![event]].concat(), 1_000),
        ] {
            let outcome = screen(&mut run, &SAMPLE_A, &word);
            assert_eq!(outcome, refusal(15, position), "{event}, {run}");
        }
    }
    run.finish_with_classes(
        &[(15, 5 * 20 + 5 * 254)],
        &[("permitted", 40), ("stopped", 20)],
    );
}

/// A word that is too long comes before everything, and then the bundle's length.
#[test]
fn lengths_come_first() {
    let mut run = Run::start("screen_order::lengths_come_first");
    let too_long = [SAMPLE_A.as_slice(), &[0; MAX_BUNDLE_SIZE]].concat();
    let six = |spot| refusal(6, spot);
    // The answers to the word 1 0 of each bundle.
    let bundles: [(&[u8], Outcome<Screened>); 9] = [
        (&[], refusal(4, 0)),
        (&too_long[..MAX_BUNDLE_SIZE + 1], refusal(4, 0)),
        (&too_long, refusal(4, 0)),
        (&SAMPLE_A[..1], six(1)),
        (&SAMPLE_A[..28], six(27)),
        (&[0], refusal(7, 0)),
        (&[13], refusal(7, 0)),
        (&SAMPLE_A, stopped(1, 0, 1)),
        (&too_long[..MAX_BUNDLE_SIZE], stopped(1, 0, 1)),
    ];
    for length in [
        MAX_WORD_EVENTS + 1,
        MAX_WORD_EVENTS + 2,
        2 * MAX_WORD_EVENTS + 1,
        1 << 17,
    ] {
        for (bundle, _) in bundles {
            for event in [0, 1, 255] {
                let outcome = screen(&mut run, bundle, &vec![event; length]);
                assert_eq!(outcome, refusal(14, 65_535), "{length}, {run}");
            }
        }
    }
    for (bundle, expected) in bundles {
        let outcome = screen(&mut run, bundle, &[1, 0]);
        assert_eq!(outcome, expected, "{run}");
        // With an event that is not there only a sound head has another answer.
        let outcome = screen(&mut run, bundle, &[1, 0, 77]);
        let expected = expected.and(refusal(15, 2));
        assert_eq!(outcome, expected, "{run}");
    }
    run.finish_with_classes(
        &[(4, 6), (6, 4), (7, 4), (14, 4 * 9 * 3), (15, 2)],
        &[("stopped", 2)],
    );
}

/// The spots of refusals are offsets of the bundle or positions of the word, each
/// where the other has none.
#[test]
fn spots() {
    let mut run = Run::start("spots");
    for (bundle, word, number, spot) in [
        (SAMPLE_E.as_slice(), [0, 0, 0, 9].as_slice(), 15, 3),
        (&SAMPLE_E[..8], &[9, 9], 6, 7),
        (&SAMPLE_H[..2], &[9], 6, 2),
        (&[1, 1, 3, 0, 0, 1, 0], &[9], 7, 5),
        (&[1, 2, 3, 0, 0], &[9], 6, 5),
        (&[12, 0, 65], &[], 7, 2),
        (&[12, 0, 1], &[], 6, 3),
        (&[12, 0, 1, 7], &[], 6, 3),
        (&[12, 0, 1, 7, 0], &[], 6, 5),
    ] {
        let outcome = screen(&mut run, bundle, word);
        assert_eq!(outcome, Err(Refusal { number, spot }), "{bundle:?}, {run}");
    }
    run.finish(&[(6, 6), (7, 2), (15, 1)]);
}
