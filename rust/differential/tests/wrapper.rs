//! The safe calls: results and errors, against the reference.

use differential::faults::{BlockFault, LengthFault};
use differential::files::{build, random_bundle, MAX_BUNDLE_SIZE};
use differential::logs::{
    random_word, Contents, MAX_EVENTS, MAX_LOG_EVENTS, MAX_ROWS, TABLE, WRONG_EVENTS, WRONG_N,
    WRONG_ROWS,
};
use differential::run::{output_lengths, Outcome, Run};
use hovmekhar::{Refusal, Summary, TABLE_SIZE};
use std::collections::HashSet;
use std::error::Error;
use std::fmt::Debug;
use std::ops::RangeInclusive;

/// A result of the safe calls in the reference's terms.
fn outcome<R>(result: Result<R, Refusal>) -> Outcome<R> {
    result.map_err(|Refusal { number, spot }| reference::Refusal { number, spot })
}

/// A summary in the reference's terms.
fn reference_summary(Summary { n, rows, events }: Summary) -> reference::Summary {
    reference::Summary { n, rows, events }
}

/// A file of any kind: one in three is sound.
fn any_file(run: &mut Run) -> Vec<u8> {
    match run.rng.below(3) {
        0 => build(&random_bundle(&mut run.rng, 1)),
        1 => run.rng.choose(&LengthFault::ALL).file(&mut run.rng),
        _ => run.rng.choose(&BlockFault::ALL).file(&mut run.rng).0,
    }
}

/// A bundle of any length: three in four have an allowed one.
fn any_bundle(run: &mut Run) -> Vec<u8> {
    match run.rng.below(4) {
        0 => {
            let too_long = run
                .rng
                .within(MAX_BUNDLE_SIZE + 1..=MAX_BUNDLE_SIZE + 1_000);
            let length = run.rng.choose(&[0, MAX_BUNDLE_SIZE + 1, too_long]);
            run.rng.bytes(length)
        }
        _ => random_bundle(&mut run.rng, 1),
    }
}

#[test]
fn open_agrees() {
    let mut run = Run::start("open_agrees");
    for _ in 0..run.cases(1_000) {
        let file = any_file(&mut run);
        let needed = hovmekhar::open_vec(&file).map_or(504, |bundle| bundle.len());
        let lengths = output_lengths(&mut run.rng, needed);
        let output_len = run.rng.choose(&lengths);
        let done = run.open(&file, output_len);

        let mut output = vec![0; output_len];
        let result = hovmekhar::open(&file, &mut output);
        assert_eq!(outcome(result), done.outcome, "{run}");
        if let Ok(length) = result {
            assert!(output[..length] == done.output[..length], "{run}");
        } else {
            assert!(output.iter().all(|&byte| byte == 0), "{run}");
        }
    }
    run.finish(&[(0, 100), (1, 200), (17, 40), (18, 30), (2, 60), (3, 50)]);
}

#[test]
fn seal_agrees() {
    let mut run = Run::start("seal_agrees");
    for _ in 0..run.cases(1_000) {
        let bundle = any_bundle(&mut run);
        let lengths = output_lengths(&mut run.rng, build(&bundle).len());
        let output_len = run.rng.choose(&lengths);
        let done = run.seal(&bundle, output_len);

        let mut output = vec![0; output_len];
        let result = hovmekhar::seal(&bundle, &mut output);
        assert_eq!(outcome(result), done.outcome, "{run}");
        if let Ok(length) = result {
            assert!(output[..length] == done.output[..length], "{run}");
        } else {
            assert!(output.iter().all(|&byte| byte == 0), "{run}");
        }
    }
    run.finish(&[(0, 300), (3, 100), (4, 100)]);
}

/// The calls that return a vector never lack room, so they agree with a call on
/// the longest output.
#[test]
fn vectors_agree() {
    let mut run = Run::start("vectors_agree");
    for _ in 0..run.cases(1_000) {
        let file = any_file(&mut run);
        let done = run.open(&file, 64_512);
        let result = hovmekhar::open_vec(&file);
        if let Ok(bundle) = &result {
            assert!(done.output[..bundle.len()] == *bundle, "{run}");
        }
        assert_eq!(outcome(result.map(|b| b.len())), done.outcome, "{run}");

        let bundle = any_bundle(&mut run);
        let done = run.seal(&bundle, 65_536);
        let result = hovmekhar::seal_vec(&bundle);
        if let Ok(file) = &result {
            assert!(done.output[..file.len()] == *file, "{run}");
        }
        assert_eq!(outcome(result.map(|f| f.len())), done.outcome, "{run}");
    }
    run.finish(&[(0, 700), (1, 200), (17, 40), (18, 30), (2, 60), (4, 100)]);
}

/// A number of the range; one in ten is one of the wrong ones instead.
fn mostly_within(run: &mut Run, range: RangeInclusive<usize>, wrong: &[usize]) -> usize {
    match run.rng.below(10) {
        0 => run.rng.choose(wrong),
        _ => run.rng.within(range),
    }
}

/// A table of any length and contents for this word: nine in ten are long enough.
fn any_table(run: &mut Run, n: usize, word: &[u8]) -> Vec<u16> {
    let contents = run.rng.choose(&Contents::ALL);
    let longer = TABLE + run.rng.below(100);
    let mut table = contents.table(&mut run.rng, n, word, longer);
    if run.rng.below(10) == 0 {
        table.truncate(run.rng.below(TABLE));
    }
    table
}

#[test]
fn fresh_agrees() {
    let mut run = Run::start("fresh_agrees");
    for _ in 0..run.cases(1_000) {
        let n = mostly_within(&mut run, 1..=MAX_EVENTS, &WRONG_N);
        let mut table = any_table(&mut run, MAX_EVENTS, &[]);
        let fresh = run.fresh(n, &table);

        let result = Summary::fresh(n, &mut table);
        let result = outcome(result.map(reference_summary));
        assert_eq!(result, fresh.outcome, "{run}");
        assert!(table == fresh.table, "{run}");
    }
    run.finish(&[(0, 600), (5, 30), (16, 40)]);
}

#[test]
fn take_agrees() {
    let mut run = Run::start("take_agrees");
    for _ in 0..run.cases(2_000) {
        let n = run.rng.within(1..=MAX_EVENTS);
        let length = run.rng.choose(&[5, 20, 200]);
        let mut word = random_word(&mut run.rng, n, 0..=length);
        let mut table = any_table(&mut run, n, &word);
        if run.rng.below(10) == 0 {
            word.push(run.rng.within(n..=255) as u8);
        }
        let summary = Summary {
            n: mostly_within(&mut run, n..=n, &WRONG_N),
            rows: mostly_within(&mut run, 1..=MAX_ROWS, &WRONG_ROWS),
            events: mostly_within(&mut run, 0..=MAX_LOG_EVENTS, &WRONG_EVENTS),
        };
        let taken = run.take(reference_summary(summary), &word, &table);

        let result = summary.take(&word, &mut table);
        let result = outcome(result.map(reference_summary));
        assert_eq!(result, taken.outcome, "{run}");
        assert!(table == taken.table, "{run}");
    }
    run.finish(&[(0, 400), (5, 100), (7, 50), (8, 10), (9, 50), (16, 200)]);
}

/// Each refusal that the calls on files can give is an error with its number, its
/// spot and a sentence with both.
#[test]
fn refusals_of_files_are_errors() -> Result<(), Box<dyn Error>> {
    let file = hovmekhar::seal_vec(&[5; 600])?;
    let mut faulty = file.clone();
    faulty[4] ^= 1;
    let mut padded = file.clone();
    padded[700] ^= 1;
    let swapped = [&file[512..], &file[..512]].concat();
    let mut output = [0; 599];
    for (file, number, spot) in [
        (&file[1..], Refusal::FILE_LENGTH, 0),
        (&faulty, Refusal::BLOCK_SUMS, 0),
        (&padded, Refusal::BLOCK_USE, 1),
        (&swapped, Refusal::BLOCK_NUMBER, 0),
        (&file, Refusal::OUTPUT_SHORT, 600),
    ] {
        check_error(hovmekhar::open(file, &mut output), number, spot);
    }
    for (length, number, spot) in [
        (600, Refusal::OUTPUT_SHORT, 1_024),
        (0, Refusal::BUNDLE_LENGTH, 0),
        (64_513, Refusal::BUNDLE_LENGTH, 0),
    ] {
        check_error(hovmekhar::seal(&vec![5; length], &mut output), number, spot);
    }
    Ok(())
}

/// So it is with the calls on a log table.
#[test]
fn refusals_of_logs_are_errors() -> Result<(), Box<dyn Error>> {
    let mut table = [0; TABLE_SIZE];
    let summary = Summary::fresh(3, &mut table)?;
    for (result, number, spot) in [
        (
            Summary::fresh(3, &mut table[1..]),
            Refusal::NUMBERS_SHORT,
            3_584,
        ),
        (Summary::fresh(0, &mut table), Refusal::STATE_RANGE, 0),
        (
            summary.take(&[0], &mut table[1..]),
            Refusal::NUMBERS_SHORT,
            3_584,
        ),
        (summary.take(&[0, 2, 3], &mut table), Refusal::VALUE, 2),
        (summary.take(&[0; 1_025], &mut table), Refusal::EVENTS, 0),
        (summary.take(&[0; 256], &mut table), Refusal::ROWS, 0),
        (
            Summary { rows: 0, ..summary }.take(&[0], &mut table),
            Refusal::STATE_RANGE,
            0,
        ),
    ] {
        check_error(result, number, spot);
    }
    Ok(())
}

fn check_error<R: Debug>(result: Result<R, Refusal>, number: u8, spot: usize) {
    let refusal = result.expect_err("each of these is refused");
    assert_eq!(refusal, Refusal { number, spot });
    let error: Box<dyn Error> = Box::new(refusal);
    let sentence = error.to_string();
    assert!(
        sentence.starts_with(&format!("refusal {number}: ")),
        "{sentence}"
    );
    assert!(sentence.contains(&spot.to_string()), "{sentence}");
}

/// Every number of the refusal table, and one that is not in it, has a sentence
/// of its own with number and spot; those that have one spot only leave it out.
#[test]
fn every_number_has_a_sentence() {
    let spot = 40_961;
    let mut sentences = HashSet::new();
    for number in 1..=24 {
        let sentence = Refusal { number, spot }.to_string();
        let start = format!("refusal {number}: ");
        assert!(sentence.starts_with(&start), "{sentence}");
        let one_spot = [1, 4, 14, 19, 22, 24].contains(&number);
        assert_eq!(sentence.contains("40961"), !one_spot, "{sentence}");
        assert_eq!(
            sentence.contains("no refusal has this number"),
            number == 24,
            "{sentence}"
        );
        assert!(
            sentences.insert(sentence[start.len()..].to_string()),
            "{sentence}"
        );
    }
}
