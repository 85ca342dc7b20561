//! The cases of `tests/data` for the carried engine: the answer, all tokens that were lent, and
//! the buffer of the events so far.

use differential::engine::{replace, room, start, step};
use differential::run::Run;
use differential::vectors::{
    kept_line, replaced_line, started_line, stepped_line, tokens_line, Case, Cases, LENT,
};
use reference::Step;

const FILE: &str = include_str!("data/12.txt");

/// How many tokens are lent for a word: more than there can be places.
const NUMBERS: usize = 66;

fn cases(call: &str) -> Vec<Case> {
    Cases::read(FILE).of(call).to_vec()
}

/// A start, and then a step for each event up to the first that is stopped or refused: the
/// last answer. The buffer has room for all of them.
fn last_answer(run: &mut Run, bundle: &[u8], word: &[u8]) -> String {
    let mut left = start(run, bundle, &vec![LENT.into(); NUMBERS]);
    let mut line = started_line(left.outcome);
    let mut kept = room(&mut run.rng, word.len());
    for &event in word {
        let Ok(number) = left.outcome else { break };
        let played = step(run, bundle, &left.tokens, &kept, number, event.into());
        line = stepped_line(played.outcome);
        (left.tokens, kept) = (played.tokens, played.kept);
        match played.outcome {
            Ok(Step::Moved(next)) => left.outcome = Ok(next),
            _ => break,
        }
    }
    format!("last {line} {}", tokens_line(&left.tokens, " "))
}

#[test]
fn carried() {
    let mut run = Run::start("vectors_engine::carried");
    for case in cases("carry") {
        let [bundle, word] = case.arguments();
        let answer = last_answer(&mut run, &bundle.bytes(), &word.bytes());
        assert_eq!(answer, case.answer, "{run}");
    }
    run.finish_with_classes(&[(0, 50), (4, 1), (7, 1), (15, 2)], &[("stopped", 5)]);
}

#[test]
fn started() {
    let mut run = Run::start("vectors_engine::started");
    for case in cases("start_lent") {
        let [bundle, tokens] = case.arguments();
        let started = start(&mut run, &bundle.bytes(), &tokens.tokens());
        let line = started_line(started.outcome);
        let answer = format!("{line} {}", tokens_line(&started.tokens, ","));
        assert_eq!(answer, case.answer, "{run}");
    }
    run.finish(&[(0, 10), (4, 5), (5, 7), (6, 9), (7, 5), (8, 3)]);
}

#[test]
fn stepped() {
    let mut run = Run::start("vectors_engine::stepped");
    for case in cases("step_lent") {
        let [bundle, tokens, kept, number, event] = case.arguments();
        let (tokens, kept) = (tokens.tokens(), kept.bytes());
        let (number, event) = (number.number(), event.number());
        let played = step(&mut run, &bundle.bytes(), &tokens, &kept, number, event);
        let line = stepped_line(played.outcome);
        let tokens = tokens_line(&played.tokens, ",");
        let answer = format!("{line} {tokens} {}", kept_line(&played.kept));
        assert_eq!(answer, case.answer, "{run}");
    }
    let of_bundles = [(4, 4), (6, 11), (7, 7), (8, 6)];
    let of_steps = [(0, 22), (14, 22), (5, 9), (16, 17), (15, 12), (3, 16)];
    let numbers = [of_bundles.as_slice(), &of_steps].concat();
    run.finish_with_classes(&numbers, &[("permitted", 13), ("stopped", 9)]);
}

/// The kept events are all of the buffer.
#[test]
fn replaced() {
    let mut run = Run::start("vectors_engine::replaced");
    for case in cases("replace") {
        let [old, new, kept] = case.arguments().map(|argument| argument.bytes());
        let tokens = [LENT.into(); NUMBERS];
        let replaced = replace(&mut run, [&old, &new], &tokens, &kept, kept.len());
        let line = replaced_line(replaced.outcome);
        let answer = format!("{line} {}", tokens_line(&replaced.tokens, " "));
        assert_eq!(answer, case.answer, "{run}");
    }
    run.finish(&[(0, 16), (23, 1)]);
}

#[test]
fn replaced_with_lent_memory() {
    let mut run = Run::start("vectors_engine::replaced_with_lent_memory");
    for case in cases("replace_lent") {
        let [old, new, tokens, kept, number] = case.arguments();
        let [old, new, kept] = [old, new, kept].map(|argument| argument.bytes());
        let (tokens, number) = (tokens.tokens(), number.number());
        let replaced = replace(&mut run, [&old, &new], &tokens, &kept, number);
        let line = replaced_line(replaced.outcome);
        let answer = format!("{line} {}", tokens_line(&replaced.tokens, ","));
        assert_eq!(answer, case.answer, "{run}");
    }
    let of_bundles = [(4, 13), (6, 25), (7, 25), (8, 6)];
    let of_lengths = [(14, 18), (3, 21), (5, 10)];
    let of_nets = [(0, 18), (22, 11), (15, 6), (23, 8)];
    run.finish(&[of_bundles.as_slice(), &of_lengths, &of_nets].concat());
}
