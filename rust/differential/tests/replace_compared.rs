//! Replacing a net where the comparison's premise holds, the old one's file as the first: both
//! are accepted, each prefix of the old log is one of the new log, and each completed word of
//! the old one is completed in the new one. Behind a prefix of the old log there is neither
//! 22, 15 nor 23. Otherwise there can be 23.

use differential::bundles::{SAMPLE_A, SAMPLE_LONGER};
use differential::comparing::File;
use differential::engine::{any_tokens, lengths, marking, play, replace};
use differential::log_pairs::{pair, part_of, rewritten, Words};
use differential::logs::TABLE;
use differential::run::{refusal, Run};
use differential::screening::screen;
use reference::Screened;

/// Replaces the net of the old file behind each prefix of its log, with slices of each length.
fn replace_behind_each_prefix(run: &mut Run, old: &File, new: &File) {
    assert_eq!(old.n, new.n, "{run}");
    assert!(old.prefixes().is_subset(&new.prefixes()), "{run}");
    assert!(old.completed().is_subset(&new.completed()), "{run}");
    let nets = [old.bundle.as_slice(), new.bundle.as_slice()];
    for prefix in old.prefixes() {
        let slice = any_tokens(&mut run.rng, 64);
        let played = play(run, nets[0], &slice, prefix);
        assert_eq!(played.outcome, Ok(Screened::Permitted), "{run}");
        let behind = run.rng.below(9);
        let kept = [prefix, &run.rng.bytes(behind)].concat();
        for length in lengths(&mut run.rng, new.net.len()) {
            let mut tokens = played.tokens.clone();
            tokens.resize(length, 7);
            let replaced = replace(run, nets, &tokens, &kept, prefix.len());
            if length < new.net.len() {
                assert_eq!(replaced.outcome, refusal(5, new.net.len()), "{run}");
                continue;
            }
            let after = marking(new.n, &new.net, prefix);
            tokens[..after.len()].copy_from_slice(&after);
            assert_eq!(
                (replaced.outcome, replaced.tokens),
                (Ok(()), tokens),
                "{run}"
            );
        }
        run.note("prefixes of the old log");
    }
}

/// The other way round the premise does not hold: what the first net does not permit stops it.
fn replace_the_other_way_round(run: &mut Run, old: &File, new: &File) {
    let nets = [new.bundle.as_slice(), old.bundle.as_slice()];
    for prefix in new.prefixes() {
        let expected = match screen(run, nets[1], prefix) {
            Ok(Screened::Stopped { position, .. }) => refusal(23, position),
            _ => Ok(()),
        };
        let tokens = any_tokens(&mut run.rng, 64);
        let replaced = replace(run, nets, &tokens, prefix, prefix.len());
        assert_eq!(replaced.outcome, expected, "{run}");
        run.note(match expected {
            Ok(()) => "the other way round",
            Err(_) => "stopped the other way round",
        });
    }
}

/// So many pairs of files, whose first log this makes of that of the second.
fn replace_pairs(
    run: &mut Run,
    pairs: usize,
    is_new: bool,
    make_first: fn(&mut Run, &Words) -> Words,
) {
    let mut done = 0;
    while done < pairs {
        if let Some(certified) = pair(run, is_new, make_first) {
            let [old, new] = certified.map(|certified| File::accepted(run, certified));
            replace_behind_each_prefix(run, &old, &new);
            replace_the_other_way_round(run, &old, &new);
            run.note(match old.completed().is_empty() {
                true => "pairs without completed words",
                false => "pairs with completed words",
            });
            done += 1;
        }
    }
}

/// The old log is a part of the new one.
#[test]
fn included_logs() {
    let mut run = Run::start("replace_compared::included_logs");
    let pairs = run.cases(250);
    replace_pairs(&mut run, pairs, false, part_of);
    replace_pairs(&mut run, pairs, true, part_of);
    run.finish_with_classes(
        &[(5, 1_000), (23, 300)],
        &[
            ("prefixes of the old log", 1_200),
            ("stopped the other way round", 300),
            ("the other way round", 1_200),
            ("pairs with completed words", 70),
        ],
    );
}

/// The same prefixes and the same completed words: the premise holds the other way round, too.
#[test]
fn equal_logs() {
    let mut run = Run::start("replace_compared::equal_logs");
    let pairs = run.cases(250);
    for is_new in [false, true] {
        let mut done = 0;
        while done < pairs {
            if let Some(certified) = pair(&mut run, is_new, rewritten) {
                let [old, new] = certified.map(|certified| File::accepted(&mut run, certified));
                replace_behind_each_prefix(&mut run, &old, &new);
                replace_behind_each_prefix(&mut run, &new, &old);
                done += 1;
            }
        }
    }
    run.finish_with_classes(&[(5, 3_000)], &[("prefixes of the old log", 4_000)]);
}

/// Behind a prefix of the one log that is none of the other the sale stops on the other net,
/// though both files are accepted, and goes on with its own.
#[test]
fn a_stop_without_the_premise() {
    let mut run = Run::start("a_stop_without_the_premise");
    let [shorter, longer] = [SAMPLE_A.as_slice(), &SAMPLE_LONGER];
    for bundle in [shorter, longer] {
        let judged = run.judge(bundle, &[0; TABLE]).outcome;
        assert!(judged.is_ok(), "{judged:?}");
    }
    // The first log is a part of the second.
    let replaced = replace(&mut run, [shorter, longer], &[7; 3], &[0, 0], 2);
    assert_eq!((replaced.outcome, replaced.tokens), (Ok(()), vec![1, 1, 7]));
    let replaced = replace(&mut run, [longer, shorter], &[7; 3], &[0, 0], 2);
    assert_eq!((replaced.outcome, replaced.tokens), (Ok(()), vec![1, 0, 7]));
    let played = play(&mut run, longer, &[7; 3], &[0, 0, 0]);
    assert_eq!(played.tokens, [1, 0, 7]);
    let replaced = replace(&mut run, [longer, shorter], &played.tokens, &[0, 0, 0], 3);
    assert_eq!(
        (replaced.outcome, replaced.tokens),
        (refusal(23, 2), played.tokens)
    );
    let goes_on = play(&mut run, longer, &[7; 3], &[0, 0, 0, 1]);
    assert_eq!(goes_on.outcome, Ok(Screened::Permitted));
    run.finish_with_classes(&[(23, 1)], &[("replaced", 2)]);
}
