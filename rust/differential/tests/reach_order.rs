//! The search for a word: every two causes of a refusal at once, and which of them is named.

use differential::bundles::{Layout, Place, SAMPLE_A};
use differential::head_faults::{to_be_spoilt, HeadFault};
use differential::reaching::reach;
use differential::run::{refusal, Run};
use reference::Refusal;

/// What can be wrong with a call, in the order in which it is refused.
#[derive(Clone, Copy, Debug, PartialEq, Eq)]
enum Cause {
    /// 4, 6, 7 and 8.
    Bundle(HeadFault),
    /// 15.
    Wanted,
    /// Not a refusal: no word leads to the event.
    NoWord,
}

impl Cause {
    fn all() -> Vec<Self> {
        let of_bundle = HeadFault::ALL.map(Self::Bundle);
        [of_bundle.as_slice(), &[Self::Wanted, Self::NoWord]].concat()
    }
}

/// The arguments of a call that finds a word, to be spoilt.
struct Arguments {
    layout: Layout,
    bundle: Vec<u8>,
    wanted: usize,
}

/// Two events and three places, the last of which lets event 1 through behind two events 0;
/// or it never does.
fn arguments(run: &mut Run, leads: bool) -> Arguments {
    let place = |m, ins, outs| Place { m, ins, outs };
    let last = place(0, vec![leads.into(), 0], vec![0, 2]);
    let places = [
        place(3, vec![1, 0], vec![1, 2]),
        place(9, vec![0, 0], vec![0, 0]),
        last,
    ];
    let is_new = run.rng.below(2) == 0;
    let layout = to_be_spoilt(2, is_new, places).layout();
    Arguments {
        bundle: layout.bytes.clone(),
        layout,
        wanted: 1,
    }
}

/// Spoils arguments so, and returns how the call is then refused, where nothing before it is
/// wrong.
fn spoil(run: &mut Run, arguments: &mut Arguments, cause: Cause) -> Option<Refusal> {
    match cause {
        Cause::Bundle(fault) => {
            let Arguments { layout, bundle, .. } = arguments;
            Some(fault.spoil(&mut run.rng, layout, bundle))
        }
        Cause::Wanted => {
            arguments.wanted = run
                .rng
                .choose(&[2, 3, 12, 255, 256, 257, 1 << 32, usize::MAX]);
            refusal::<()>(15, 0).err()
        }
        Cause::NoWord => None,
    }
}

/// Of any two the earlier is named.
#[test]
fn pairs_of_causes() {
    let mut run = Run::start("reach_order::pairs_of_causes");
    for _ in 0..run.cases(40) {
        let all = Cause::all();
        for (i, &first) in all.iter().enumerate() {
            for &second in &all[i..] {
                let mut arguments = arguments(&mut run, second != Cause::NoWord);
                if first != second {
                    spoil(&mut run, &mut arguments, second);
                }
                let expected = spoil(&mut run, &mut arguments, first);
                let reached = reach(&mut run, &arguments.bundle, arguments.wanted);
                match expected {
                    Some(refused) => assert_eq!(reached, Err(refused), "{first:?} {second:?}"),
                    None => assert_eq!(reached, Ok(None), "{run}"),
                }
            }
        }
    }
    // 9 causes, each with itself and those behind it.
    run.finish_with_classes(
        &[
            (4, 40 * (9 + 8)),
            (7, 40 * (7 + 5 + 4)),
            (8, 40 * 6),
            (6, 40 * 3),
            (15, 40 * 2),
            (0, 40),
        ],
        &[("none", 40)],
    );
}

/// What is spoilt above leads to the event without.
#[test]
fn nothing_wrong() {
    let mut run = Run::start("reach_order::nothing_wrong");
    for _ in 0..run.cases(50) {
        let Arguments { bundle, wanted, .. } = arguments(&mut run, true);
        let reached = reach(&mut run, &bundle, wanted);
        assert_eq!(reached, Ok(Some(vec![0, 0])), "{run}");
    }
    run.finish_with_classes(&[(0, 50)], &[("2 events", 50)]);
}

/// No number from n on is an event, whatever its low bits are, and what is wrong with a bundle
/// comes before.
#[test]
fn every_number() {
    let mut run = Run::start("reach_order::every_number");
    let numbers = (2..=300).chain([1 << 16, 1 << 32, (1 << 32) + 1, 1 << 63, usize::MAX]);
    for wanted in numbers {
        assert_eq!(reach(&mut run, &SAMPLE_A, wanted), refusal(15, 0));
        assert_eq!(reach(&mut run, &[], wanted), refusal(4, 0));
        assert_eq!(reach(&mut run, &SAMPLE_A[..9], wanted), refusal(6, 9));
        assert_eq!(reach(&mut run, &[13, 0, 0], wanted), refusal(7, 0));
    }
    run.finish(&[(15, 304), (4, 304), (6, 304), (7, 304)]);
}
