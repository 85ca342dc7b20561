//! The carried engine: every two causes of a refusal at once, and which of them is named.

use differential::bundles::{Layout, Place, SAMPLE_A};
use differential::engine::{start, step, step_with_room, MAX_TOKENS};
use differential::head_faults::{to_be_spoilt, HeadFault};
use differential::run::{refusal, Run};
use reference::{Refusal, Step};

/// What can be wrong with a step, in the order in which it is refused.
#[derive(Clone, Copy, Debug, PartialEq, Eq, PartialOrd, Ord)]
enum Cause {
    /// 14.
    Number,
    /// 4, 6, 7 and 8.
    Bundle(HeadFault),
    /// 5.
    Numbers,
    /// 16.
    Tokens,
    /// 15.
    Event,
    /// 3.
    Kept,
    /// Not a refusal: the event is stopped.
    Stop,
}

impl Cause {
    fn all() -> Vec<Self> {
        let of_bundle = HeadFault::ALL.map(Self::Bundle);
        let behind = [
            Self::Numbers,
            Self::Tokens,
            Self::Event,
            Self::Kept,
            Self::Stop,
        ];
        [[Self::Number].as_slice(), &of_bundle, &behind].concat()
    }
}

/// The arguments of a step that is permitted, to be spoilt.
struct Arguments {
    layout: Layout,
    bundle: Vec<u8>,
    tokens: Vec<u64>,
    kept: Vec<u8>,
    number: usize,
    event: usize,
}

/// Two events and three places; the buffer has just the room that is needed.
fn permitted(run: &mut Run) -> Arguments {
    let place = |m| Place {
        m,
        ins: vec![1, 0],
        outs: vec![1, 2],
    };
    let is_new = run.rng.below(2) == 0;
    let number = run.rng.choose(&[0, 7, 65_534]);
    let layout = to_be_spoilt(2, is_new, [place(3), place(0), place(300)]).layout();
    Arguments {
        bundle: layout.bytes.clone(),
        layout,
        tokens: vec![1, 2, MAX_TOKENS, 9],
        kept: run.rng.bytes(number + 1),
        number,
        event: 0,
    }
}

/// Spoils arguments so, and returns what a step then answers, where nothing before it is
/// wrong.
fn spoil(run: &mut Run, arguments: &mut Arguments, cause: Cause) -> Option<Refusal> {
    let number = arguments.number;
    let refused = |number, spot| Some(Refusal { number, spot });
    match cause {
        Cause::Number => {
            arguments.number = run.rng.choose(&[65_535, 65_536, 1 << 32, usize::MAX]);
            refused(14, 65_535)
        }
        Cause::Bundle(fault) => {
            let Arguments { layout, bundle, .. } = arguments;
            Some(fault.spoil(&mut run.rng, layout, bundle))
        }
        Cause::Numbers => {
            arguments.tokens.truncate(run.rng.below(3));
            refused(5, 3)
        }
        Cause::Tokens => {
            let lowest = run.rng.below(arguments.tokens.len().clamp(1, 3));
            spoil_tokens(run, &mut arguments.tokens[lowest..]);
            refused(16, lowest)
        }
        Cause::Event => {
            arguments.event = run.rng.choose(&[2, 3, 255, 256, 258, 1 << 32, usize::MAX]);
            refused(15, number)
        }
        Cause::Kept => {
            let any = run.rng.within(0..=number);
            arguments.kept.truncate(run.rng.choose(&[0, any, number]));
            refused(3, number + 1)
        }
        Cause::Stop => {
            let small = arguments.tokens.iter_mut();
            let small = small.filter(|tokens| **tokens <= MAX_TOKENS);
            small.for_each(|tokens| *tokens = 0);
            None
        }
    }
}

/// More tokens than a run reaches; the last number may be none of a place.
fn spoil_tokens(run: &mut Run, tokens: &mut [u64]) {
    for tokens in tokens {
        *tokens = run.rng.choose(&[MAX_TOKENS + 1, 1 << 32, u64::MAX]);
    }
}

/// Of any two the earlier is named, and nothing is written.
#[test]
fn pairs_of_causes() {
    let mut run = Run::start("engine_order::pairs_of_causes");
    for _ in 0..run.cases(40) {
        let all = Cause::all();
        for (i, &first) in all.iter().enumerate() {
            for &second in &all[i..] {
                let mut arguments = permitted(&mut run);
                if first != second {
                    spoil(&mut run, &mut arguments, second);
                }
                let expected = spoil(&mut run, &mut arguments, first);
                let Arguments {
                    bundle,
                    tokens,
                    kept,
                    number,
                    event,
                    ..
                } = arguments;
                let played = step(&mut run, &bundle, &tokens, &kept, number, event);
                match expected {
                    Some(refused) => {
                        assert_eq!(played.outcome, Err(refused), "{first:?} {second:?}")
                    }
                    None => assert!(matches!(played.outcome, Ok(Step::Stopped { .. }))),
                }
                assert_eq!((&played.tokens, &played.kept), (&tokens, &kept), "{run}");
                note_start(&mut run, first, &bundle, &tokens, expected);
            }
        }
    }
    let counts = [(4, 1_500), (5, 200), (6, 300), (7, 1_200), (8, 400)];
    let of_steps = [(14, 520), (16, 160), (15, 120), (3, 80)];
    run.finish_with_classes(&[counts.as_slice(), &of_steps].concat(), &[("stopped", 40)]);
}

/// A start refuses what a step does, but for the number, the tokens and the event.
fn note_start(
    run: &mut Run,
    first: Cause,
    bundle: &[u8],
    tokens: &[u64],
    expected: Option<Refusal>,
) {
    let started = start(run, bundle, tokens);
    if matches!(first, Cause::Bundle(_) | Cause::Numbers) {
        assert_eq!(started.outcome.err(), expected, "{run}");
        assert_eq!(started.tokens, tokens, "{run}");
    }
    if first > Cause::Numbers {
        assert_eq!(started.outcome, Ok(0), "{run}");
        assert_eq!(started.tokens[..3], [3, 0, 300], "{run}");
    }
}

/// 14 comes at every number from 65,535 on, whatever else is lent.
#[test]
fn number_comes_first() {
    let mut run = Run::start("number_comes_first");
    let bundles: [&[u8]; 5] = [&SAMPLE_A, &[], &SAMPLE_A[..9], &[0], &[12, 0, 65]];
    for number in [65_535, 65_536, 1 << 16 | 1, 1 << 32, 1 << 63, usize::MAX] {
        for bundle in bundles {
            for tokens in [[].as_slice(), &[1, 2], &[u64::MAX; 2]] {
                for event in [0, 2, usize::MAX] {
                    let played = step_with_room(&mut run, bundle, tokens, number, event);
                    assert_eq!(played.outcome, refusal(14, 65_535), "{run}");
                }
            }
        }
    }
    for number in [0, 1, 65_533, 65_534] {
        let played = step_with_room(&mut run, &SAMPLE_A, &[1, 2], number, 1);
        assert_eq!(played.outcome, Ok(Step::Moved(number + 1)), "{run}");
        let played = step_with_room(&mut run, &SAMPLE_A, &[1, 2], number, 2);
        assert_eq!(played.outcome, refusal(15, number), "{run}");
    }
    run.finish(&[(0, 4), (14, 6 * 5 * 3 * 3), (15, 4)]);
}
