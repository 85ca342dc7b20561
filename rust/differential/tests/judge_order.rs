//! Judging: several faults at once, and which of them is named.

use differential::bundles::{Certificate, Field, Layout};
use differential::files::MAX_BUNDLE_SIZE;
use differential::limits::Size;
use differential::logs::TABLE;
use differential::nets::Certified;
use differential::ordered_faults::{judge_pairs, judge_sets, OrderedFault};
use differential::run::{refusal, Run};
use reference::Refusal;
use std::ops::Range;

/// A log of 1,020 events and 243 rows, with four words of zeros at the end.
const SIZE: Size = Size {
    n: 2,
    zeros: 240,
    words: 6,
    events: 1_020,
    places: 5,
    terms: 3 * 239,
};

/// Faults in the order in which they are noticed.
fn faults(run: &mut Run, certified: &Certified, layout: &Layout) -> Vec<OrderedFault> {
    let field = |kind, number: usize| layout.all(kind)[number].clone();
    let value = OrderedFault::value;
    let last_length = field(Field::Length, SIZE.words - 1);
    let last_word = last_length.end..layout.all(Field::PlaceCount)[0].start;
    let any_event = run.rng.within(last_word.start..=last_word.end - 1);
    let in_last_word = |byte: usize, event| (byte..byte + 1, event);
    let out = |place: usize| field(Field::Out, place * SIZE.n);
    let does_not_fit = |place| OrderedFault {
        fields: vec![(out(place), 65_535)],
        refusal: Refusal {
            number: 10,
            spot: place,
        },
        noticed: layout.places_end,
    };

    let wrong = certified.wrong_continuations();
    let permits = |number: usize| {
        let places = &certified.bundle.places;
        let permits = |place: &usize| !places[*place].refuses(&certified.rows, wrong[number]);
        (0..places.len()).find(permits).expect("one that permits")
    };
    let certificates = &certified.bundle.certificates;
    let first_of_kind_1 = certificates
        .iter()
        .position(|certificate| matches!(certificate, Certificate::Weights { .. }))
        .expect("one of kind 1");
    let weight = field(Field::Weight, 2);
    let does_not_hold = |range, value| OrderedFault {
        fields: vec![(range, value)],
        refusal: Refusal {
            number: 12,
            spot: first_of_kind_1,
        },
        noticed: layout.certificate_ends[first_of_kind_1],
    };

    vec![
        value(field(Field::EventCount, 0), 13),
        value(field(Field::Event, 0), 2),
        OrderedFault {
            // Four events are left besides those that the word has.
            fields: vec![(last_length.clone(), last_word.len() + 5)],
            refusal: Refusal {
                number: 8,
                spot: last_length.start,
            },
            noticed: last_length.end,
        },
        value(any_event..any_event + 1, 2),
        OrderedFault {
            // Each event of the word but the first needs a row.
            fields: last_word
                .clone()
                .filter(|&byte| byte != any_event)
                .map(|byte| in_last_word(byte, 1))
                .collect(),
            refusal: Refusal {
                number: 9,
                spot: last_length.start,
            },
            noticed: last_word.end,
        },
        value(field(Field::PlaceCount, 0), 65),
        does_not_fit(1),
        does_not_fit(3),
        value(field(Field::Kind, 0), 2),
        OrderedFault {
            fields: vec![(field(Field::Listed, 0), permits(0))],
            refusal: Refusal {
                number: 11,
                spot: 0,
            },
            noticed: layout.certificate_ends[0],
        },
        value(field(Field::Listed, 1), SIZE.places),
        value(field(Field::K, 0), 0),
        value(field(Field::TermRow, 1), 243),
        value(field(Field::TermEvent, 2), 2),
        // Row 1 is that of the word 1, and nothing follows there.
        does_not_hold(field(Field::TermRow, 0), 1),
        does_not_hold(weight.clone(), read(layout, weight) + 1),
        value(field(Field::TermCount, 7), 65),
        value(
            layout.all(Field::Listed).last().expect("kind 0").clone(),
            255,
        ),
    ]
}

fn read(layout: &Layout, range: Range<usize>) -> usize {
    let bytes = &layout.bytes[range];
    usize::from(bytes[0]) + 256 * usize::from(bytes[1])
}

#[test]
fn pairs_of_faults() {
    let mut run = Run::start("pairs_of_faults");
    for _ in 0..run.cases(2) {
        let certified = SIZE.certified(&mut run.rng);
        let layout = certified.bundle.layout();
        let faults = faults(&mut run, &certified, &layout);
        judge_pairs(&mut run, &layout, &faults);
    }
    run.finish(&[
        (6, 5),
        (7, 200),
        (8, 10),
        (9, 10),
        (10, 20),
        (11, 10),
        (12, 4),
    ]);
}

#[test]
fn sets_of_faults() {
    let mut run = Run::start("sets_of_faults");
    for _ in 0..run.cases(10) {
        let certified = SIZE.certified(&mut run.rng);
        let layout = certified.bundle.layout();
        let faults = faults(&mut run, &certified, &layout);
        judge_sets(&mut run, &layout, &faults, 200);
    }
    run.finish(&[
        (6, 100),
        (7, 500),
        (8, 50),
        (9, 50),
        (10, 50),
        (11, 5),
        (12, 1),
        (13, 30),
    ]);
}

/// Wrong lengths of the bundle and of the table come before every other fault,
/// and leave the table as it was.
#[test]
fn lengths_come_first() {
    let mut run = Run::start("lengths_come_first");
    let certified = SIZE.certified(&mut run.rng);
    let layout = certified.bundle.layout();
    for fault in faults(&mut run, &certified, &layout) {
        for (bundle_len, table_len, expected) in [
            (layout.bytes.len(), TABLE - 1, refusal(5, TABLE)),
            (layout.bytes.len(), 0, refusal(5, TABLE)),
            (0, TABLE - 1, refusal(4, 0)),
            (0, TABLE, refusal(4, 0)),
            (MAX_BUNDLE_SIZE + 1, 0, refusal(4, 0)),
            (MAX_BUNDLE_SIZE + 1, TABLE, refusal(4, 0)),
        ] {
            let mut bytes = layout.bytes.clone();
            fault.write(&mut bytes);
            bytes.resize(bundle_len, 0);
            let table: Vec<u16> = run.rng.items(table_len);
            let judged = run.judge(&bytes, &table);
            assert_eq!(judged.outcome, expected, "{run}");
            assert!(judged.table == table, "the table changed: {run}");
        }
    }
    run.finish(&[(4, 60), (5, 30)]);
}
