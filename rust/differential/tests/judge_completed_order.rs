//! Judging in the new edition: several faults at once, and which of them is named.

use differential::bundles::{Certificate, Field, Layout, Pair, NEW};
use differential::nets::Certified;
use differential::ordered_faults::{judge_pairs, judge_sets, OrderedFault};
use differential::run::Run;
use differential::sales::Sales;
use reference::Refusal;
use std::ops::Range;

/// A log of 1,003 events and 202 rows.
const SIZE: Sales = Sales {
    n: 3,
    sales: 100,
    words: 8,
    events: 1_003,
    places: 6,
    terms: 2 * 101,
    pairs: 3 * 101,
};

/// Faults in the order in which they are noticed.
fn faults(certified: &Certified, layout: &Layout) -> Vec<OrderedFault> {
    let field = |kind, number: usize| layout.all(kind)[number].clone();
    let value = OrderedFault::value;
    let last_length = field(Field::Length, SIZE.words - 1);
    let last_mark = field(Field::Mark, SIZE.words - 1);
    let last_word = last_mark.end..layout.all(Field::PlaceCount)[0].start;
    let of_place = |fields: Vec<(Range<usize>, usize)>, number, spot| OrderedFault {
        fields,
        refusal: Refusal { number, spot },
        noticed: layout.places_end,
    };
    let does_not_fit =
        |place: usize| of_place(vec![(field(Field::Out, place * SIZE.n), 65_535)], 10, place);
    // More tokens than before, by 1: it still fits.
    let does_not_obey = |place: usize| {
        let range = field(Field::In, place * SIZE.n);
        let more = read(layout, range.clone()) + 1;
        of_place(vec![(range, more)], 20, place)
    };
    let of_weights = |field: Field| -> usize {
        let first = layout.all(field)[0].start;
        let ends = layout.certificate_ends.iter();
        ends.filter(|&&end| end <= first).count()
    };
    let number = of_weights(Field::PairCount);
    let Certificate::Weights { pairs, .. } = &certified.bundle.certificates[number] else {
        panic!("certificate {number} is of kind 1");
    };
    // On an empty word any weight would do.
    let has_events = |pair: &Pair| !certified.bundle.words[usize::from(pair.word)].is_empty();
    let with_events = pairs.iter().position(has_events).expect("a sale");
    let does_not_hold = |range, value| OrderedFault {
        fields: vec![(range, value)],
        refusal: Refusal {
            number: 12,
            spot: number,
        },
        noticed: layout.certificate_ends[number],
    };
    let weight = field(Field::PairWeight, with_events);
    vec![
        value(field(Field::EventCount, 0), NEW + 13),
        value(field(Field::Mark, 0), 2),
        value(field(Field::Event, 0), 3),
        value(field(Field::Mark, 1), 255),
        OrderedFault {
            // With so many events the log has 1,025. The mark is not read.
            fields: vec![
                (last_length.clone(), last_word.len() + 1_025 - SIZE.events),
                (last_mark.clone(), 9),
            ],
            refusal: Refusal {
                number: 8,
                spot: last_length.start,
            },
            noticed: last_length.end,
        },
        value(last_mark, 2),
        value(last_word.start..last_word.start + 1, 3),
        OrderedFault {
            // Events 0 alone: all but the first need a row each.
            fields: last_word
                .clone()
                .skip(1)
                .map(|byte| (byte..byte + 1, 0))
                .collect(),
            refusal: Refusal {
                number: 9,
                spot: last_length.start,
            },
            noticed: last_word.end,
        },
        value(field(Field::PlaceCount, 0), 65),
        does_not_fit(2),
        does_not_fit(5),
        does_not_obey(1),
        does_not_obey(4),
        value(field(Field::Kind, 0), 2),
        value(field(Field::PairCount, 0), 65),
        value(field(Field::PairWord, 1), SIZE.words),
        // The word with the number 1 is partial.
        does_not_hold(field(Field::PairWord, 0), 1),
        does_not_hold(weight.clone(), (read(layout, weight) + 1) % 65_536),
        value(field(Field::PairCount, 2), 255),
        value(field(Field::PairWord, 3 * 4), 255),
    ]
}

fn read(layout: &Layout, range: Range<usize>) -> usize {
    let bytes = &layout.bytes[range];
    usize::from(bytes[0]) + 256 * usize::from(bytes[1])
}

#[test]
fn pairs_of_faults() {
    let mut run = Run::start("judge_completed_order::pairs_of_faults");
    for _ in 0..run.cases(2) {
        let certified = SIZE.certified(&mut run.rng);
        let layout = certified.bundle.layout();
        judge_pairs(&mut run, &layout, &faults(&certified, &layout));
    }
    let of_nets = [(10, 20), (12, 4), (20, 10)];
    let of_fields = [(6, 5), (7, 200), (8, 10), (9, 10)];
    run.finish(&[of_fields.as_slice(), &of_nets].concat());
}

#[test]
fn sets_of_faults() {
    let mut run = Run::start("judge_completed_order::sets_of_faults");
    for _ in 0..run.cases(10) {
        let certified = SIZE.certified(&mut run.rng);
        let layout = certified.bundle.layout();
        let faults = faults(&certified, &layout);
        judge_sets(&mut run, &layout, &faults, 200);
    }
    let of_nets = [(10, 50), (20, 20), (13, 30)];
    let of_fields = [(6, 100), (7, 500), (8, 50), (9, 20)];
    run.finish(&[of_fields.as_slice(), &of_nets].concat());
}
