//! The carried engine: starts and steps on bundles of both editions, accepted or not, with
//! tokens of every length, whatever they hold.

use differential::bundle_faults::altered;
use differential::bundles::{
    one_for_each_answer, Bundle, SAMPLE_A, SAMPLE_E, SAMPLE_F, SAMPLE_NEW,
};
use differential::engine::{
    any_event, any_kept, any_number, any_tokens, lengths, room, start, step, step_with_room,
    MAX_TOKENS,
};
use differential::nets::small_certified;
use differential::run::{refusal, Outcome, Run};
use differential::screening::any_net;
use reference::Step;

fn stopped(position: usize, place: usize, shortfall: usize) -> Outcome<Step> {
    Ok(Step::Stopped {
        position,
        place,
        shortfall,
    })
}

/// Sample A, whose event 0 puts back what it takes out of place 0.
#[test]
fn by_hand() {
    let mut run = Run::start("engine::by_hand");
    let started = start(&mut run, &SAMPLE_A, &[7, 7, 7]);
    assert_eq!((started.outcome, started.tokens), (Ok(0), vec![1, 2, 7]));
    for (tokens, number, event, outcome, left) in [
        ([1, 2, 7], 0, 0, Ok(Step::Moved(1)), [1, 1, 7]),
        ([1, 1, 7], 1, 0, Ok(Step::Moved(2)), [1, 0, 7]),
        ([1, 0, 7], 2, 0, stopped(2, 1, 1), [1, 0, 7]),
        ([1, 0, 7], 2, 1, Ok(Step::Moved(3)), [0, 0, 7]),
        // Both places refuse it.
        ([0, 0, 7], 3, 0, stopped(3, 0, 1), [0, 0, 7]),
        // The first place permits it, and its token stays all the same.
        ([5, 0, 7], 3, 0, stopped(3, 1, 1), [5, 0, 7]),
        ([1, 2, 7], 4, 2, refusal(15, 4), [1, 2, 7]),
        ([1, 2, 7], 65_534, 1, Ok(Step::Moved(65_535)), [0, 2, 7]),
        ([1, 2, 7], 65_535, 0, refusal(14, 65_535), [1, 2, 7]),
    ] {
        let played = step_with_room(&mut run, &SAMPLE_A, &tokens, number, event);
        assert_eq!((played.outcome, played.tokens), (outcome, left.to_vec()));
    }
    // Without a place every event that is there is permitted, and no number is needed.
    let none: &[u64] = &[];
    for tokens in [none, &[u64::MAX, 1]] {
        assert_eq!(start(&mut run, &SAMPLE_F, tokens).outcome, Ok(0));
        let played = step_with_room(&mut run, &SAMPLE_F, tokens, 9, 0);
        assert_eq!(played.outcome, Ok(Step::Moved(10)));
    }
    assert_eq!(
        step_with_room(&mut run, &SAMPLE_E, &[0], 0, 0).outcome,
        stopped(0, 0, 1)
    );
    run.finish_with_classes(
        &[(0, 13), (14, 1), (15, 1)],
        &[("permitted", 6), ("stopped", 4)],
    );
}

/// What an event puts into a place does not count for it: in(e) is added behind the test.
#[test]
fn produced_tokens_come_later() {
    let mut run = Run::start("produced_tokens_come_later");
    for takes in [1, 255, 256, 65_535u16] {
        let [low, high] = takes.to_le_bytes();
        let bundle = [1, 0, 1, 0, 0, 255, 255, low, high];
        let tokens = u64::from(takes);
        let played = step_with_room(&mut run, &bundle, &[tokens - 1], 3, 0);
        assert_eq!(played.outcome, stopped(3, 0, 1), "{run}");
        let played = step_with_room(&mut run, &bundle, &[tokens], 3, 0);
        assert_eq!(played.tokens, [65_535], "{run}");
    }
    run.finish_with_classes(&[(0, 8)], &[("permitted", 4), ("stopped", 4)]);
}

/// A bundle of either edition, whether or not it is accepted.
fn any_bundle(run: &mut Run) -> Bundle {
    match run.rng.below(2) {
        0 => small_certified(&mut run.rng).bundle,
        _ => any_net(&mut run.rng).0,
    }
}

/// A step with so many tokens, and with any buffer, number and event.
fn any_step(run: &mut Run, bytes: &[u8], length: usize, n: usize) {
    let tokens = any_tokens(&mut run.rng, length);
    let number = any_number(&mut run.rng);
    let kept = any_kept(&mut run.rng, number);
    let event = any_event(&mut run.rng, n);
    step(run, bytes, &tokens, &kept, number, event);
}

/// A start leaves the initial tokens, and a step takes what tokens, buffer, number and event
/// are lent. With too few numbers there is 5.
#[test]
fn any_bundles() {
    let mut run = Run::start("engine::any_bundles");
    for _ in 0..run.cases(500) {
        let bundle = any_bundle(&mut run);
        let initial: Vec<u64> = bundle.places.iter().map(|place| place.m.into()).collect();
        let bytes = bundle.bytes();
        for length in lengths(&mut run.rng, initial.len()) {
            let tokens = any_tokens(&mut run.rng, length);
            let started = start(&mut run, &bytes, &tokens);
            if length < initial.len() {
                assert_eq!(started.outcome, refusal(5, initial.len()), "{run}");
                assert_eq!(started.tokens, tokens, "{run}");
            } else {
                assert_eq!(started.outcome, Ok(0), "{run}");
                let (front, rest) = started.tokens.split_at(initial.len());
                assert_eq!((front, rest), (&*initial, &tokens[initial.len()..]));
            }
            for _ in 0..3 {
                any_step(&mut run, &bytes, length, bundle.n);
            }
        }
        run.note(if bundle.is_new() { "new" } else { "old" });
    }
    run.finish_with_classes(
        &[
            (0, 1_500),
            (3, 300),
            (5, 1_000),
            (14, 1_000),
            (15, 300),
            (16, 100),
        ],
        &[
            ("permitted", 500),
            ("stopped", 200),
            ("old", 100),
            ("new", 80),
        ],
    );
}

/// The numbers behind the last place hold anything, and are neither looked at nor changed.
#[test]
fn numbers_behind_the_last_place() {
    let mut run = Run::start("numbers_behind_the_last_place");
    for _ in 0..run.cases(300) {
        let bundle = any_bundle(&mut run);
        let places = bundle.places.len();
        let bytes = bundle.bytes();
        let mut tokens: Vec<u64> = (0..places).map(|_| run.rng.below(300) as u64).collect();
        let event = run.rng.below(bundle.n);
        let alone = step_with_room(&mut run, &bytes, &tokens, 5, event);
        for behind in [0, MAX_TOKENS, MAX_TOKENS + 1, u64::MAX] {
            tokens.truncate(places);
            tokens.resize(places + 1 + run.rng.below(64), behind);
            let played = step_with_room(&mut run, &bytes, &tokens, 5, event);
            assert_eq!(played.outcome, alone.outcome, "{run}");
            assert_eq!(played.tokens[..places], alone.tokens, "{run}");
            assert_eq!(played.tokens[places..], tokens[places..], "{run}");
        }
    }
    run.finish_with_classes(&[(0, 1_500)], &[("permitted", 300), ("stopped", 100)]);
}

/// Each answer of the judge: what refuses a bundle behind its last place, or for its rows, is
/// no refusal here.
#[test]
fn refused_bundles() {
    let mut run = Run::start("engine::refused_bundles");
    for (bundle, judged) in one_for_each_answer() {
        let started = start(&mut run, &bundle, &[7; 64]);
        let played = step_with_room(&mut run, &bundle, &[70_000; 64], 3, 0);
        match judged {
            Err(refused) if [4, 6, 8].contains(&refused.number) && bundle.len() != 3 => {
                assert_eq!(started.outcome, Err(refused), "{run}");
                assert_eq!(played.outcome, Err(refused), "{run}");
            }
            // The bundle of 9 ends in its words, before the count of places.
            Err(refused) if refused.number == 9 => {
                assert_eq!(started.outcome, refusal(6, bundle.len()), "{run}");
            }
            _ => {
                assert_eq!(started.outcome, Ok(0), "{bundle:?}, {run}");
                assert_eq!(played.outcome, Ok(Step::Moved(4)), "{bundle:?}, {run}");
            }
        }
    }
    run.finish(&[(0, 18), (4, 2), (6, 2), (8, 2)]);
}

/// Up to four changes at once. The definitions say which fault comes first.
#[test]
fn several_faults() {
    let mut run = Run::start("engine::several_faults");
    for _ in 0..run.cases(2_500) {
        let certified = small_certified(&mut run.rng);
        let bytes = altered(&mut run.rng, &certified.bundle);
        let places = certified.bundle.places.len();
        let length = match run.rng.below(4) {
            0 => places.saturating_sub(1),
            _ => 64,
        };
        let tokens = any_tokens(&mut run.rng, length);
        start(&mut run, &bytes, &tokens);
        any_step(&mut run, &bytes, length, certified.bundle.n);
    }
    run.finish_with_classes(
        &[
            (0, 1_000),
            (3, 50),
            (5, 300),
            (6, 200),
            (7, 300),
            (14, 500),
            (15, 60),
        ],
        &[("permitted", 200), ("stopped", 25)],
    );
}

/// The new edition differs by its first byte and its marks, which change no answer.
#[test]
fn editions() {
    let mut run = Run::start("engine::editions");
    for _ in 0..run.cases(300) {
        let (bundle, _) = any_net(&mut run.rng);
        let n = bundle.n;
        let marks: Vec<bool> = bundle.words.iter().map(|_| run.rng.below(2) == 0).collect();
        let old = Bundle {
            marks: None,
            ..bundle.clone()
        };
        let new = Bundle {
            marks: Some(marks),
            ..bundle
        };
        let [old, new] = [old, new].map(|bundle| bundle.bytes());
        let tokens = any_tokens(&mut run.rng, 64);
        let started = start(&mut run, &old, &tokens);
        assert_eq!(start(&mut run, &new, &tokens), started, "{run}");
        for event in 0..=n {
            let kept = room(&mut run.rng, 0);
            let played = step(&mut run, &old, &started.tokens, &kept, 0, event);
            let other = step(&mut run, &new, &started.tokens, &kept, 0, event);
            assert_eq!(other, played, "{run}");
        }
    }
    let played = step_with_room(&mut run, &SAMPLE_NEW, &[1, 0], 0, 3);
    assert_eq!(played.outcome, refusal(15, 0), "128 + 3 is three events");
    run.finish_with_classes(&[(15, 601)], &[("permitted", 300), ("stopped", 300)]);
}
