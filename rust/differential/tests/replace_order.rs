//! Replacing a net: every two causes of a refusal at once, and which of them is named.

use differential::bundles::{Layout, Place, SAMPLE_A};
use differential::engine::{any_tokens, replace, MAX_TOKENS};
use differential::head_faults::{to_be_spoilt, HeadFault};
use differential::run::{refusal, Run};
use reference::Refusal;

/// What can be wrong with a replacement, in the order in which it is refused.
#[derive(Clone, Copy, Debug, PartialEq, Eq)]
enum Cause {
    /// 14.
    Number,
    /// 3.
    Kept,
    /// 4, 6, 7 and 8 of the old bundle.
    Old(HeadFault),
    /// 4, 6, 7 and 8 of the new bundle.
    New(HeadFault),
    /// 22.
    EventCounts,
    /// 5.
    Numbers,
    /// 15.
    Event,
    /// 23.
    Stop,
}

impl Cause {
    fn all() -> Vec<Self> {
        let before = [Self::Number, Self::Kept];
        let of_old = HeadFault::ALL.map(Self::Old);
        let of_new = HeadFault::ALL.map(Self::New);
        let behind = [Self::EventCounts, Self::Numbers, Self::Event, Self::Stop];
        [before.as_slice(), &of_old, &of_new, &behind].concat()
    }
}

/// A bundle, to be spoilt.
struct Net {
    layout: Layout,
    bytes: Vec<u8>,
}

impl Net {
    /// Three places over so many events, of which each event takes a token: the last one has
    /// so many, the others more. Event 0 puts it back.
    fn new(run: &mut Run, n: usize, last: u16) -> Self {
        let place = |m| Place {
            m,
            ins: [vec![1], vec![0; n - 1]].concat(),
            outs: vec![1; n],
        };
        let is_new = run.rng.below(2) == 0;
        let layout = to_be_spoilt(n, is_new, [place(300), place(9), place(last)]).layout();
        let bytes = layout.bytes.clone();
        Self { layout, bytes }
    }

    fn spoil(&mut self, run: &mut Run, fault: HeadFault) -> Refusal {
        fault.spoil(&mut run.rng, &self.layout, &mut self.bytes)
    }
}

/// The arguments of a replacement that succeeds, to be spoilt.
struct Arguments {
    old: Net,
    new: Net,
    tokens: Vec<u64>,
    kept: Vec<u8>,
    number: usize,
}

/// Two events, and a buffer with just the events so far: all but the last are 0.
fn succeeding(run: &mut Run) -> Arguments {
    let number = run.rng.choose(&[1, 2, 7, 65_535]);
    let mut kept = vec![0; number];
    kept[number - 1] = 1;
    Arguments {
        old: Net::new(run, 2, 2),
        new: Net::new(run, 2, 1),
        tokens: any_tokens(&mut run.rng, 4),
        kept,
        number,
    }
}

/// Spoils arguments so, and returns how a replacement is then refused, where nothing before
/// it is wrong.
fn spoil(run: &mut Run, arguments: &mut Arguments, cause: Cause) -> Refusal {
    let number = arguments.number;
    let refused = |number, spot| Refusal { number, spot };
    match cause {
        Cause::Number => {
            arguments.number = run.rng.choose(&[65_536, 65_537, 1 << 32, usize::MAX]);
            refused(14, 65_535)
        }
        Cause::Kept => {
            let any = run.rng.within(0..=number - 1);
            arguments
                .kept
                .truncate(run.rng.choose(&[0, any, number - 1]));
            refused(3, number)
        }
        Cause::Old(fault) => arguments.old.spoil(run, fault),
        Cause::New(fault) => arguments.new.spoil(run, fault),
        Cause::EventCounts => {
            spoil_event_count(run, arguments);
            refused(22, 0)
        }
        Cause::Numbers => {
            arguments.tokens.truncate(run.rng.below(3));
            refused(5, 3)
        }
        Cause::Event => {
            // All from one on are wrong.
            let position = run.rng.below(arguments.kept.len().max(1));
            let wrong = run.rng.choose(&[2, 3, 11, 12, 128, 255]);
            arguments.kept[position..].fill(wrong);
            refused(15, position)
        }
        Cause::Stop => {
            arguments.new = Net::new(run, 2, 0);
            refused(23, 0)
        }
    }
}

/// One of the nets has more events; either may stop.
fn spoil_event_count(run: &mut Run, arguments: &mut Arguments) {
    let n = run.rng.within(3..=12);
    let tokens = run.rng.below(2) as u16;
    let other = Net::new(run, n, tokens);
    match run.rng.below(2) {
        0 => arguments.old = other,
        _ => arguments.new = other,
    }
}

/// Of any two the earlier is named, and nothing is written.
#[test]
fn pairs_of_causes() {
    let mut run = Run::start("replace_order::pairs_of_causes");
    let all = Cause::all();
    for _ in 0..run.cases(20) {
        for (i, &first) in all.iter().enumerate() {
            for &second in &all[i..] {
                let mut arguments = succeeding(&mut run);
                if first != second {
                    spoil(&mut run, &mut arguments, second);
                }
                let expected = spoil(&mut run, &mut arguments, first);
                let Arguments {
                    old,
                    new,
                    tokens,
                    kept,
                    number,
                } = arguments;
                let replaced = replace(&mut run, [&old.bytes, &new.bytes], &tokens, &kept, number);
                assert_eq!(replaced.outcome, Err(expected), "{first:?} {second:?}");
                assert_eq!(replaced.tokens, tokens, "{run}");
            }
        }
    }
    // 20 causes, each with itself and those behind it.
    run.finish(&[
        (14, 20 * 20),
        (3, 20 * 19),
        (4, 20 * (18 + 17 + 11 + 10)),
        (7, 20 * (16 + 14 + 13 + 9 + 7 + 6)),
        (8, 20 * (15 + 8)),
        (6, 20 * (12 + 5)),
        (22, 20 * 4),
        (5, 20 * 3),
        (15, 20 * 2),
        (23, 20),
    ]);
}

/// What is spoilt above succeeds without.
#[test]
fn nothing_wrong() {
    let mut run = Run::start("replace_order::nothing_wrong");
    for _ in 0..run.cases(50) {
        let Arguments {
            old,
            new,
            tokens,
            kept,
            number,
        } = succeeding(&mut run);
        let replaced = replace(&mut run, [&old.bytes, &new.bytes], &tokens, &kept, number);
        assert_eq!(replaced.tokens, [299, 8, 0, tokens[3]], "{run}");
    }
    run.finish(&[(0, 50)]);
}

/// 14 comes at every number from 65,536 on, and 3 at every other one that is above the length,
/// whatever else is lent.
#[test]
fn number_comes_first() {
    let mut run = Run::start("replace_order::number_comes_first");
    let bundles: [&[u8]; 5] = [&SAMPLE_A, &[], &SAMPLE_A[..9], &[0], &[12, 0, 65]];
    let kept = run.rng.bytes(70_000);
    for old in bundles {
        for new in bundles {
            for tokens in [[].as_slice(), &[1, 2], &[u64::MAX; 2]] {
                for number in [65_536, 65_537, 70_001, 1 << 32, 1 << 63, usize::MAX] {
                    for length in [0, 65_535, 70_000] {
                        let kept = &kept[..length];
                        let replaced = replace(&mut run, [old, new], tokens, kept, number);
                        assert_eq!(replaced.outcome, refusal(14, 65_535), "{run}");
                    }
                }
                for (number, length) in [(1, 0), (2, 1), (65_535, 65_534), (65_535, 0)] {
                    let kept = &kept[..length];
                    let replaced = replace(&mut run, [old, new], tokens, kept, number);
                    assert_eq!(replaced.outcome, refusal(3, number), "{run}");
                }
            }
        }
    }
    run.finish(&[(14, 25 * 3 * 6 * 3), (3, 25 * 3 * 4)]);
}

/// The tokens are not tested: 16 never comes, whatever the slice held, and the numbers behind
/// the last place of the new net stay, also where the old net has more.
#[test]
fn tokens_are_not_tested() {
    let mut run = Run::start("tokens_are_not_tested");
    let place = |m| [m, 0, 0, 0, 0, 0];
    let three = [[1, 0, 3].as_slice(), &place(5), &place(6), &place(7)].concat();
    let one = [[1, 0, 1].as_slice(), &place(4)].concat();
    for held in [0, MAX_TOKENS, MAX_TOKENS + 1, 1 << 63, u64::MAX] {
        let replaced = replace(&mut run, [&three, &one], &[held; 5], &[0, 9], 1);
        assert_eq!(
            (replaced.outcome, replaced.tokens),
            (Ok(()), vec![4, held, held, held, held])
        );
        let replaced = replace(&mut run, [&one, &three], &[held; 5], &[0, 9], 1);
        assert_eq!(
            (replaced.outcome, replaced.tokens),
            (Ok(()), vec![5, 6, 7, held, held])
        );
    }
    run.finish(&[(0, 10)]);
}
