//! The search for a word: how long it is, which one it is, and what screening says to it and
//! to those before it.

use differential::bundles::{Place, MAX_PLACES};
use differential::reaching::{alone_refusing, few_tokens, moving_tokens, reach, with, words};
use differential::reaching::{Shape, MOST};
use differential::run::Run;
use differential::screening::net;
use reference::Screened;

/// How long a word of six is, which is not looked for.
const TOO_LONG: usize = MOST + 1;

/// Whether the net permits a word with the wanted event behind it.
fn leads(run: &mut Run, bundle: &[u8], word: &[u8], wanted: usize) -> bool {
    let screened = run.screen(bundle, &with(word, wanted));
    screened.expect("sound events") == Screened::Permitted
}

/// On nets over 1 to 12 events: exactly the words of 0 to 5 events are found, and one of 6 is
/// not, though it leads there.
#[test]
fn every_length() {
    let mut run = Run::start("reach_words::every_length");
    let mut none = 0;
    for _ in 0..run.cases(3) {
        for shape in Shape::ALL {
            for length in 0..=TOO_LONG {
                let least = match shape {
                    Shape::Chain => 1 + length,
                    _ => 1 + length.min(1),
                };
                for n in least..=7 {
                    let goal = shape.goal(&mut run.rng, n, length);
                    let bytes = goal.bundle.bytes();
                    let expected = (length <= MOST).then(|| goal.word.clone());
                    let reached = reach(&mut run, &bytes, goal.wanted);
                    assert_eq!(reached, Ok(expected), "{shape:?}, {goal:?}, {run}");
                    assert!(leads(&mut run, &bytes, &goal.word, goal.wanted), "{run}");
                    none += usize::from(length == TOO_LONG);
                }
            }
        }
    }
    assert_eq!(none, run.cases(3) * (1 + 6 + 6));
    run.finish_with_classes(
        &[],
        &[
            ("no event", 3 * 21),
            ("1 event", 3 * 18),
            ("2 events", 3 * 17),
            ("3 events", 3 * 16),
            ("4 events", 3 * 15),
            ("5 events", 3 * 14),
            ("none", 3 * 13),
        ],
    );
}

/// As many events as there can be: where all words are tried by the definitions, which takes
/// its time, and where the word is known.
#[test]
fn many_events() {
    let mut run = Run::start("reach_words::many_events");
    for shape in Shape::ALL {
        for length in 0..=TOO_LONG {
            for n in 8..=12 {
                let goal = shape.goal(&mut run.rng, n, length);
                let reached = run.reach(&goal.bundle.bytes(), goal.wanted);
                let expected = (length <= MOST).then_some(goal.word);
                assert_eq!(reached, Ok(expected), "{shape:?}, {run}");
            }
        }
        let goal = shape.goal(&mut run.rng, 12, MOST);
        let reached = reach(&mut run, &goal.bundle.bytes(), goal.wanted);
        assert_eq!(reached, Ok(Some(goal.word)), "{shape:?}, {run}");
    }
    run.finish_with_classes(
        &[(0, 3 * (7 * 5 + 1))],
        &[("no event", 15), ("5 events", 18), ("none", 15)],
    );
}

/// The word with the wanted event behind it is permitted, and no shorter word's is, nor that of
/// one of the same length that comes before; there is none exactly when no word's is.
#[test]
fn screened() {
    let mut run = Run::start("reach_words::screened");
    for _ in 0..run.cases(120) {
        let (bundle, wanted) = few_tokens(&mut run.rng);
        let bytes = bundle.bytes();
        let reached = run.reach(&bytes, wanted).expect("an event that is there");
        let all = (0..=MOST).flat_map(|length| words(bundle.n, length));
        for word in all {
            if reached.as_ref() == Some(&word) {
                assert!(leads(&mut run, &bytes, &word, wanted), "{word:?}, {run}");
                break;
            }
            assert!(!leads(&mut run, &bytes, &word, wanted), "{word:?}, {run}");
            run.note("a word before");
        }
    }
    run.finish_with_classes(
        &[],
        &[
            ("no event", 5),
            ("1 event", 3),
            ("2 events", 3),
            ("none", 30),
            ("a word before", 30_000),
        ],
    );
}

/// Nets on which the place that refuses an event changes with the prefix, during one search.
#[test]
fn refused_by_other_places() {
    let mut run = Run::start("reach_words::refused_by_other_places");
    for _ in 0..run.cases(1_000) {
        let (bundle, wanted) = moving_tokens(&mut run.rng);
        let reached = reach(&mut run, &bundle.bytes(), wanted);
        let word = reached.expect("an event that is there");
        if alone_refusing(&bundle) >= 2 {
            run.note(match word {
                Some(word) if word.len() >= 2 => "other places, a longer word",
                Some(_) => "other places, a short word",
                None => "other places, none",
            });
        }
    }
    run.finish_with_classes(
        &[(0, 1_000)],
        &[
            ("no event", 50),
            ("1 event", 40),
            ("2 events", 20),
            ("3 events", 12),
            ("4 events", 6),
            ("5 events", 2),
            ("none", 500),
            ("other places, a longer word", 50),
            ("other places, a short word", 70),
            ("other places, none", 90),
        ],
    );
}

/// The words of a length, in order: each comes before the next, and there are n for each
/// position.
#[test]
fn words_in_order() {
    for n in 1..=12 {
        for length in 0..=3 {
            let all: Vec<Vec<u8>> = words(n, length).collect();
            assert_eq!(all.len(), n.pow(length as u32));
            assert!(all.windows(2).all(|two| two[0] < two[1]), "{n}, {length}");
            assert!(all.iter().flatten().all(|&event| usize::from(event) < n));
        }
    }
    assert_eq!(words(12, MOST).count(), 248_832);
}

/// Each of 64 places is asked, for the wanted event and for those before it: the place that
/// makes the difference is any of them.
#[test]
fn every_place() {
    let mut run = Run::start("reach_words::every_place");
    let place = |m, ins, outs| Place { m, ins, outs };
    for count in [1, 2, 3, 7, 8, 9, 15, 16, 17, 63, MAX_PLACES] {
        for which in 0..count {
            let with_place = |other: Place| {
                let mut places = vec![place(9, vec![0; 3], vec![1; 3]); count];
                places[which] = other;
                net(3, places).bytes()
            };
            // Events 0 and 1 put a token each; the wanted event 2 takes two.
            let takes_two = with_place(place(0, vec![1, 1, 0], vec![0, 0, 2]));
            let reached = reach(&mut run, &takes_two, 2);
            assert_eq!(reached, Ok(Some(vec![0, 0])), "{count}, {which}, {run}");
            // Event 0 is refused.
            let refuses = with_place(place(0, vec![3, 1, 0], vec![1, 0, 2]));
            let reached = reach(&mut run, &refuses, 2);
            assert_eq!(reached, Ok(Some(vec![1, 0])), "{count}, {which}, {run}");
            // No event leads there.
            let never = with_place(place(0, vec![0; 3], vec![0, 0, 1]));
            assert_eq!(reach(&mut run, &never, 2), Ok(None), "{run}");
        }
    }
    let places = 1 + 2 + 3 + 7 + 8 + 9 + 15 + 16 + 17 + 63 + 64;
    run.finish_with_classes(
        &[(0, 3 * places)],
        &[("2 events", 2 * places), ("none", places)],
    );
}
