//! The search for a word: bundles of both editions, accepted or not, and any wanted event.

use differential::bundle_faults::altered;
use differential::bundles::{
    one_for_each_answer, Bundle, Place, SAMPLE_A, SAMPLE_E, SAMPLE_F, SAMPLE_LONGER, SAMPLE_NEW,
};
use differential::nets::small_certified;
use differential::reaching::{any_wanted, few_tokens, reach};
use differential::run::{refusal, Outcome, Run};
use differential::screening::{any_net, net};

/// The answer that is this word.
fn word(events: &[u8]) -> Outcome<Option<Vec<u8>>> {
    Ok(Some(events.to_vec()))
}

/// Samples: in that of the new edition event 1 is permitted only behind event 0.
#[test]
fn by_hand() {
    let mut run = Run::start("reach::by_hand");
    for (bundle, wanted, expected) in [
        (SAMPLE_A.as_slice(), 0, word(&[])),
        (&SAMPLE_A, 1, word(&[])),
        (&SAMPLE_A, 2, refusal(15, 0)),
        (&SAMPLE_LONGER, 0, word(&[])),
        (&SAMPLE_NEW, 0, word(&[])),
        (&SAMPLE_NEW, 1, word(&[0])),
        (&SAMPLE_NEW, 2, word(&[])),
        (&SAMPLE_NEW, 3, refusal(15, 0)),
        // Without a place every event is permitted, and with sample E's none.
        (&SAMPLE_F, 0, word(&[])),
        (&SAMPLE_E, 0, Ok(None)),
        (&SAMPLE_E, 1, refusal(15, 0)),
    ] {
        assert_eq!(reach(&mut run, bundle, wanted), expected, "{bundle:?}");
    }
    run.finish_with_classes(
        &[(0, 8), (15, 3)],
        &[("no event", 6), ("1 event", 1), ("none", 1)],
    );
}

/// What an event puts into a place does not count for itself, nor what the wanted one puts.
#[test]
fn produced_tokens_come_later() {
    let mut run = Run::start("reach::produced_tokens_come_later");
    let place = |m, ins, outs| Place { m, ins, outs };
    let both = |outs| net(2, vec![place(0, vec![9, 9], outs)]).bytes();
    // Event 0 is refused, so what it would put leads nowhere.
    assert_eq!(reach(&mut run, &both(vec![1, 1]), 0), Ok(None));
    assert_eq!(reach(&mut run, &both(vec![1, 1]), 1), Ok(None));
    assert_eq!(reach(&mut run, &both(vec![0, 9]), 1), word(&[0]));
    assert_eq!(reach(&mut run, &both(vec![0, 10]), 1), word(&[0, 0]));
    // The wanted event puts fewer tokens than it takes, and is permitted once.
    let second = net(2, vec![place(3, vec![2, 0], vec![3, 0])]).bytes();
    assert_eq!(reach(&mut run, &second, 0), word(&[]));
    run.finish_with_classes(
        &[(0, 5)],
        &[
            ("none", 2),
            ("no event", 1),
            ("1 event", 1),
            ("2 events", 1),
        ],
    );
}

/// Tokens of more than two bytes, and of a bit more than a place has at first: they are
/// carried in full.
#[test]
fn largest_numbers() {
    let mut run = Run::start("reach::largest_numbers");
    let most = u16::MAX;
    let place = |m, ins, outs| Place { m, ins, outs };
    // Event 0 puts as much as event 1 takes. The wanted event 2 needs event 1 so often.
    for times in 1..=3u16 {
        let piled = place(0, vec![most, 0, 0], vec![0, most, 0]);
        let counted = place(0, vec![0, 1, 0], vec![0, 0, times]);
        let bundle = net(3, vec![piled, counted]).bytes();
        let expected = match times {
            1 => word(&[0, 1]),
            2 => word(&[0, 0, 1, 1]),
            _ => Ok(None),
        };
        assert_eq!(reach(&mut run, &bundle, 2), expected, "{times}");
    }
    // The initial tokens last for one event more.
    let full = place(most, vec![0, most], vec![most, 0]);
    let counted = place(0, vec![1, 0], vec![0, 3]);
    let bundle = net(2, vec![full, counted]).bytes();
    assert_eq!(reach(&mut run, &bundle, 1), Ok(None));
    let piled = place(most, vec![most, 0, 0], vec![0, most, 0]);
    let counted = place(0, vec![0, 1, 0], vec![0, 0, 3]);
    let bundle = net(3, vec![piled, counted]).bytes();
    assert_eq!(reach(&mut run, &bundle, 2), word(&[0, 0, 1, 1, 1]));
    run.finish_with_classes(
        &[(0, 5)],
        &[
            ("none", 2),
            ("2 events", 1),
            ("4 events", 1),
            ("5 events", 1),
        ],
    );
}

/// A bundle of either edition, whether or not it is accepted.
fn any_bundle(run: &mut Run) -> Bundle {
    match run.rng.below(3) {
        0 => small_certified(&mut run.rng).bundle,
        1 => any_net(&mut run.rng).0,
        _ => few_tokens(&mut run.rng).0,
    }
}

/// Every event that is there, and others.
#[test]
fn any_bundles() {
    let mut run = Run::start("reach::any_bundles");
    for _ in 0..run.cases(150) {
        let bundle = any_bundle(&mut run);
        let bytes = bundle.bytes();
        for wanted in 0..=bundle.n {
            let reached = reach(&mut run, &bytes, wanted);
            assert_eq!(reached.is_err(), wanted == bundle.n, "{run}");
        }
        let wanted = any_wanted(&mut run.rng, bundle.n);
        let reached = reach(&mut run, &bytes, wanted);
        assert_eq!(reached.is_err(), wanted >= bundle.n, "{run}");
        run.note(if bundle.is_new() { "new" } else { "old" });
    }
    run.finish_with_classes(
        &[(0, 500), (15, 150)],
        &[
            ("no event", 250),
            ("1 event", 30),
            ("2 events", 5),
            ("none", 100),
            ("old", 40),
            ("new", 40),
        ],
    );
}

/// Nets with few tokens, where words of every length lead to the wanted event.
#[test]
fn few_tokens_lead() {
    let mut run = Run::start("reach::few_tokens_lead");
    for _ in 0..run.cases(3_000) {
        let (bundle, wanted) = few_tokens(&mut run.rng);
        let reached = reach(&mut run, &bundle.bytes(), wanted);
        let word = reached.expect("an event that is there");
        // What comes before the wanted event would be a shorter word.
        let has_wanted = word.is_some_and(|word| word.contains(&(wanted as u8)));
        assert!(!has_wanted, "{run}");
    }
    run.finish_with_classes(
        &[(0, 3_000)],
        &[
            ("no event", 300),
            ("1 event", 200),
            ("2 events", 200),
            ("3 events", 150),
            ("4 events", 100),
            ("5 events", 80),
            ("none", 900),
        ],
    );
}

/// Each answer of the judge: what refuses a bundle behind its last place, or for its rows, is
/// no refusal here.
#[test]
fn refused_bundles() {
    let mut run = Run::start("reach::refused_bundles");
    for (bundle, judged) in one_for_each_answer() {
        let reached = reach(&mut run, &bundle, 0);
        match judged {
            Err(refused) if [4, 6, 8].contains(&refused.number) && bundle.len() != 3 => {
                assert_eq!(reached, Err(refused), "{run}");
            }
            // The bundle of 9 ends in its words, before the count of places.
            Err(refused) if refused.number == 9 => {
                assert_eq!(reached, refusal(6, bundle.len()), "{run}");
            }
            _ => assert!(reached.is_ok(), "{bundle:?}, {run}"),
        }
    }
    run.finish(&[(0, 9), (4, 1), (6, 1), (8, 1)]);
}

/// Up to four changes at once. The definitions say which fault comes first.
#[test]
fn several_faults() {
    let mut run = Run::start("reach::several_faults");
    for _ in 0..run.cases(1_200) {
        let certified = small_certified(&mut run.rng);
        let bytes = altered(&mut run.rng, &certified.bundle);
        let wanted = any_wanted(&mut run.rng, certified.bundle.n);
        let reached = reach(&mut run, &bytes, wanted);
        run.note(if reached.is_ok() {
            "a result"
        } else {
            "a refusal"
        });
    }
    run.finish_with_classes(
        &[(0, 400), (6, 100), (7, 100), (15, 90)],
        &[("no event", 200), ("1 event", 15), ("none", 150)],
    );
}

/// The new edition differs by its first byte and its marks, which change no answer.
#[test]
fn editions() {
    let mut run = Run::start("reach::editions");
    for _ in 0..run.cases(300) {
        let (bundle, _) = few_tokens(&mut run.rng);
        let n = bundle.n;
        let marks: Vec<bool> = bundle.words.iter().map(|_| run.rng.below(2) == 0).collect();
        let old = Bundle {
            marks: None,
            ..bundle.clone()
        };
        let new = Bundle {
            marks: Some(marks),
            ..bundle
        };
        let [old, new] = [old, new].map(|bundle| bundle.bytes());
        for wanted in 0..=n {
            let reached = reach(&mut run, &old, wanted);
            assert_eq!(reach(&mut run, &new, wanted), reached, "{run}");
        }
    }
    run.finish_with_classes(
        &[(15, 600)],
        &[("no event", 600), ("1 event", 180), ("none", 300)],
    );
}
