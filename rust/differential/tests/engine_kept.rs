//! The carried engine: the buffer of the events so far, of which a step writes one byte where
//! the event is permitted, and else none.

use differential::bundles::{SAMPLE_A, SAMPLE_F};
use differential::engine::{any_tokens, start, step, step_with_room};
use differential::logs::MAX_EVENTS;
use differential::run::{refusal, Outcome, Run};
use differential::screening::{any_net, net, MAX_WORD_EVENTS};
use reference::Step;

/// Sample A: place 1 permits event 0 at most twice.
#[test]
fn by_hand() {
    let mut run = Run::start("engine_kept::by_hand");
    let stopped: Outcome<Step> = Ok(Step::Stopped {
        position: 2,
        place: 1,
        shortfall: 1,
    });
    for (tokens, kept, number, event, outcome, left) in [
        ([1, 2], [9, 9, 9], 0, 0, Ok(Step::Moved(1)), [0, 9, 9]),
        ([1, 1], [0, 9, 9], 1, 0, Ok(Step::Moved(2)), [0, 0, 9]),
        // Neither the event that is stopped is kept, nor the one that is not there.
        ([1, 0], [0, 0, 9], 2, 0, stopped, [0, 0, 9]),
        ([1, 0], [0, 0, 9], 2, 2, refusal(15, 2), [0, 0, 9]),
        ([1, 0], [0, 0, 9], 2, 1, Ok(Step::Moved(3)), [0, 0, 1]),
        ([0, 0], [0, 0, 1], 3, 0, refusal(3, 4), [0, 0, 1]),
        // What stands before the event, or behind it, does not matter.
        (
            [1, 2],
            [255, 9, 255],
            1,
            1,
            Ok(Step::Moved(2)),
            [255, 1, 255],
        ),
    ] {
        let played = step(&mut run, &SAMPLE_A, &tokens, &kept, number, event);
        assert_eq!((played.outcome, played.kept), (outcome, left.to_vec()));
    }
    run.finish_with_classes(&[(3, 1), (15, 1)], &[("permitted", 4), ("stopped", 1)]);
}

/// Without room for the event there is 3 with one more than the number, whether or not the
/// event is permitted; with room for just this event, or more, there is the answer.
#[test]
fn every_length() {
    let mut run = Run::start("engine_kept::every_length");
    for _ in 0..run.cases(300) {
        let (bundle, _) = any_net(&mut run.rng);
        let bytes = bundle.bytes();
        let tokens: Vec<u64> = (0..64).map(|_| run.rng.below(400) as u64).collect();
        let event = run.rng.below(bundle.n);
        let number = run.rng.within(0..=20);
        let alone = step_with_room(&mut run, &bytes, &tokens, number, event);
        for length in 0..=number + 5 {
            let kept = run.rng.bytes(length);
            let played = step(&mut run, &bytes, &tokens, &kept, number, event);
            if length <= number {
                assert_eq!(played.outcome, refusal(3, number + 1), "{run}");
                assert_eq!(
                    (played.tokens, played.kept),
                    (tokens.clone(), kept),
                    "{run}"
                );
            } else {
                assert_eq!(played.outcome, alone.outcome, "{run}");
                assert_eq!(played.tokens, alone.tokens, "{run}");
            }
            // An event that is not there comes first.
            let played = step(&mut run, &bytes, &tokens, &[], number, bundle.n);
            assert_eq!(played.outcome, refusal(15, number), "{run}");
        }
    }
    run.finish_with_classes(
        &[(0, 1_500), (3, 2_500), (15, 4_000)],
        &[("permitted", 600), ("stopped", 300)],
    );
}

/// Each event is kept as its byte, over any other, at any position, and nothing else changes.
#[test]
fn every_event_and_byte() {
    let mut run = Run::start("every_event_and_byte");
    let bytes = net(MAX_EVENTS, Vec::new()).bytes();
    for event in 0..MAX_EVENTS {
        for before in 0..=255 {
            let number = run.rng.below(100);
            let mut kept = run.rng.bytes(100);
            kept[number] = before;
            let played = step(&mut run, &bytes, &[], &kept, number, event);
            kept[number] = event as u8;
            assert_eq!(
                (played.outcome, played.kept),
                (Ok(Step::Moved(number + 1)), kept)
            );
        }
    }
    run.finish(&[(0, 256 * 12)]);
}

/// The positions around where a number needs another byte, and the last.
#[test]
fn long_buffers() {
    let mut run = Run::start("engine_kept::long_buffers");
    for number in [254, 255, 256, 65_533, 65_534] {
        for length in [number - 1, number, number + 1, number + 2, 65_536, 65_537] {
            let kept = run.rng.bytes(length);
            let played = step(&mut run, &SAMPLE_F, &[], &kept, number, 0);
            match length <= number {
                true => assert_eq!(played.outcome, refusal(3, number + 1), "{run}"),
                false => assert_eq!(played.outcome, Ok(Step::Moved(number + 1)), "{run}"),
            }
        }
    }
    // No buffer is long enough for one event more.
    let kept = run.rng.bytes(70_000);
    let played = step(&mut run, &SAMPLE_F, &[], &kept, MAX_WORD_EVENTS, 0);
    assert_eq!(played.outcome, refusal(14, MAX_WORD_EVENTS), "{run}");
    run.finish(&[(0, 5 * 4), (3, 5 * 2), (14, 1)]);
}

/// The answer and the tokens do not depend on what the buffer holds.
#[test]
fn contents_do_not_matter() {
    let mut run = Run::start("engine_kept::contents_do_not_matter");
    for _ in 0..run.cases(300) {
        let (bundle, _) = any_net(&mut run.rng);
        let bytes = bundle.bytes();
        let tokens = any_tokens(&mut run.rng, bundle.places.len());
        let started = start(&mut run, &bytes, &tokens).tokens;
        let event = run.rng.below(bundle.n);
        let number = run.rng.below(30);
        let alone = step_with_room(&mut run, &bytes, &started, number, event);
        for byte in [0, 1, 11, 12, 255] {
            let kept = vec![byte; number + run.rng.within(1..=9)];
            let played = step(&mut run, &bytes, &started, &kept, number, event);
            assert_eq!(played.outcome, alone.outcome, "{run}");
            assert_eq!(played.tokens, alone.tokens, "{run}");
        }
    }
    run.finish_with_classes(&[(0, 2_100)], &[("permitted", 600), ("stopped", 150)]);
}
