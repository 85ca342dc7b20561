//! Judging: bundles that are accepted, samples, and tables of every kind.

use differential::bundles::{one_for_each_answer, Certificate, MAX_TERMS, MAX_WORDS};
use differential::bundles::{SAMPLE_A, SAMPLE_E, SAMPLE_F, SAMPLE_G, SAMPLE_H};
use differential::files::MAX_BUNDLE_SIZE;
use differential::judging::{judge, judge_by_definitions};
use differential::logs::{table_of, Shape, MAX_EVENTS, MAX_LOG_EVENTS, MAX_ROWS, ROW, TABLE};
use differential::nets::{certified, small_certified, small_log, Certified};
use differential::run::{refusal, Outcome, Run};
use reference::{log_rows, Tally};
use std::collections::HashSet;

fn counts(rows: usize, allowed: usize, by_place: usize, by_weights: usize) -> Tally {
    Tally {
        rows,
        allowed,
        by_place,
        by_weights,
    }
}

#[test]
fn samples() {
    let mut run = Run::start("judge::samples");
    for (bundle, expected) in [
        (SAMPLE_A.as_slice(), Ok(counts(5, 4, 5, 1))),
        (&SAMPLE_E, Ok(counts(1, 0, 1, 0))),
        (&SAMPLE_F, refusal(6, 3)),
        (&SAMPLE_G, refusal(12, 0)),
        (&SAMPLE_H, refusal(7, 4)),
    ] {
        assert_eq!(judge(&mut run, bundle), expected, "{bundle:?}, {run}");
    }
    for (bundle, expected) in one_for_each_answer() {
        if !bundle.is_empty() {
            assert_eq!(judge(&mut run, &bundle), expected, "{bundle:?}, {run}");
        }
    }

    // Sample I has 18 wrong continuations. 2 and 3 are allowed after 0 1, so 0 and
    // 1 are wrong there.
    let words = vec![vec![0, 1, 2], vec![1, 0, 3]];
    let sample = certified(&mut run.rng, 4, words).expect("a small log");
    let wrong = sample.wrong_continuations();
    assert_eq!(wrong.len(), 18);
    let after_0_1 = wrong.iter().filter(|step| step.row == 2);
    assert!(after_0_1.map(|step| step.event).eq([0, 1]));
    let outcome = judge(&mut run, &sample.bundle.bytes());
    assert_eq!(outcome, Ok(counts(6, 6, 18, 0)), "{run}");
    run.finish(&[(0, 4), (6, 2), (7, 2), (12, 2)]);
}

/// Judges a bundle that has to be accepted, and counts what it has to show.
fn accept(run: &mut Run, certified: &Certified) {
    let bundle = &certified.bundle;
    let outcome = judge(run, &bundle.bytes());
    assert_eq!(outcome, Ok(certified.counts), "{bundle:?}, {run}");

    if certified.counts.by_weights > 0 {
        run.note("certificates of kind 1");
    }
    let wrong = certified.wrong_continuations();
    for (certificate, step) in bundle.certificates.iter().zip(wrong) {
        match certificate {
            Certificate::Place(place) => {
                let place = &bundle.places[usize::from(*place)];
                let counts = &certified.rows[step.row].counts;
                if place.surplus(counts, step.event) == -1 {
                    run.note("refused for one token");
                }
                if place.surplus(counts, step.event) + i64::from(place.ins[step.event]) >= 0 {
                    run.note("refused before the event puts tokens in");
                }
            }
            Certificate::Weights { k, terms, .. } => {
                let steps: HashSet<_> = terms.iter().map(|term| (term.row, term.event)).collect();
                if steps.len() < terms.len() {
                    run.note("a repeated term");
                }
                if terms.iter().any(|term| term.weight == 0) {
                    run.note("a weight of 0");
                }
                if terms.len() == MAX_TERMS {
                    run.note("64 terms");
                }
                if *k > 32_767 {
                    run.note("a large k");
                }
            }
        }
    }
    let steps = certified.allowed_steps();
    let just_fits = bundle.places.iter().any(|place| {
        let surplus = |row: usize, event| place.surplus(&certified.rows[row].counts, event);
        steps.iter().any(|step| surplus(step.row, step.event) == 0)
    });
    if just_fits {
        run.note("a place that just fits");
    }
}

#[test]
fn small_logs() {
    let mut run = Run::start("small_logs");
    for _ in 0..run.cases(2_500) {
        let certified = small_certified(&mut run.rng);
        accept(&mut run, &certified);
        if certified.bundle.n == MAX_EVENTS {
            run.note("12 events");
        }
        if certified.bundle.n == 1 {
            run.note("1 event");
        }
        if certified.bundle.words.iter().any(Vec::is_empty) {
            run.note("an empty word");
        }
        if certified.bundle.words.is_empty() {
            run.note("no word");
        }
        if certified.bundle.bytes().len() > 504 {
            run.note("more than a block");
        }
    }
    run.finish_with_classes(
        &[(0, 2_500)],
        &[
            ("12 events", 5),
            ("1 event", 5),
            ("an empty word", 100),
            ("no word", 100),
            ("more than a block", 200),
            ("certificates of kind 1", 150),
            ("a repeated term", 100),
            ("a weight of 0", 100),
            ("64 terms", 50),
            ("a large k", 50),
            ("refused for one token", 10_000),
            ("refused before the event puts tokens in", 2_000),
            ("a place that just fits", 1_000),
        ],
    );
}

/// The words of a log of this shape, with up to so many rows.
fn words_of_shape(run: &mut Run, shape: Shape, n: usize, most_rows: usize) -> Vec<Vec<u8>> {
    let mut words: Vec<Vec<u8>> = Vec::new();
    let mut events = 0;
    for word in shape.words(&mut run.rng, n) {
        if words.len() == MAX_WORDS || events + word.len() > MAX_LOG_EVENTS {
            break;
        }
        events += word.len();
        words.push(word);
        if log_rows(n, &words).len() > most_rows {
            words.pop();
            break;
        }
    }
    words
}

/// Logs of every shape with every event count, larger ones with fewer events.
#[test]
fn every_shape() {
    let mut run = Run::start("every_shape");
    for shape in Shape::ALL {
        for n in 1..=MAX_EVENTS {
            let most_rows = match n {
                1 => MAX_ROWS,
                2 => 120,
                3 => 60,
                _ => 30,
            };
            for _ in 0..run.cases(3) {
                let words = words_of_shape(&mut run, shape, n, most_rows);
                // Some logs need more places than there can be.
                if let Some(certified) = certified(&mut run.rng, n, words) {
                    accept(&mut run, &certified);
                    run.note(if certified.rows.len() > 40 {
                        "more than 40 rows"
                    } else {
                        "up to 40 rows"
                    });
                }
            }
        }
    }
    run.finish_with_classes(
        &[(0, 120)],
        &[("more than 40 rows", 3), ("up to 40 rows", 100)],
    );
}

/// Which certificates hold depends on the log alone: another net for the same
/// words, in another order and some of them twice, has the same counts.
#[test]
fn equal_logs() {
    let mut run = Run::start("equal_logs");
    for _ in 0..run.cases(300) {
        let (n, words) = small_log(&mut run.rng);
        let mut others = words.clone();
        for word in &words {
            if run.rng.below(3) == 0 {
                others.push(word[..run.rng.within(0..=word.len())].to_vec());
            }
        }
        let others = run.rng.shuffled(&others);
        let nets = [words, others].map(|words| certified(&mut run.rng, n, words));
        if let [Some(one), Some(other)] = nets {
            assert_eq!(one.counts, other.counts, "{run}");
            accept(&mut run, &one);
            accept(&mut run, &other);
        }
    }
    run.finish_with_classes(&[(0, 500)], &[("certificates of kind 1", 20)]);
}

/// Judges with this table and checks every number of it afterwards.
fn judge_with(run: &mut Run, bundle: &[u8], table: &[u16], expected: Outcome<Tally>) {
    let judged = run.judge(bundle, table);
    assert_eq!(judged.outcome, expected, "{run}");
    let mut after = table.to_vec();
    if !matches!(&expected, Err(refused) if [4, 5].contains(&refused.number)) {
        let (_, front) = judge_by_definitions(bundle);
        after[..TABLE].copy_from_slice(&front);
    }
    assert!(judged.table == after, "another table: {run}");
}

/// Every kind of bundle with tables of every kind of length: refusal 4 comes
/// before refusal 5, and that before all others. The last two lengths are short
/// when their high bits are lost.
#[test]
fn table_lengths() {
    let mut run = Run::start("judge::table_lengths");
    for _ in 0..run.cases(10) {
        for length in [
            0,
            1,
            13,
            TABLE - 1,
            TABLE,
            TABLE + 1,
            2 * TABLE,
            65_536,
            65_536 + 3_327,
        ] {
            let accepted = small_certified(&mut run.rng);
            let too_long = run.rng.bytes(MAX_BUNDLE_SIZE + 1);
            for (bundle, outcome) in [
                (accepted.bundle.bytes(), Ok(accepted.counts)),
                (SAMPLE_A.to_vec(), Ok(counts(5, 4, 5, 1))),
                (SAMPLE_A[..52].to_vec(), refusal(6, 52)),
                (SAMPLE_G.to_vec(), refusal(12, 0)),
                (vec![0], refusal(7, 0)),
                (Vec::new(), refusal(4, 0)),
                (too_long, refusal(4, 0)),
            ] {
                let expected = match outcome {
                    Err(refused) if refused.number == 4 => outcome,
                    _ if length < TABLE => refusal(5, TABLE),
                    _ => outcome,
                };
                let table: Vec<u16> = run.rng.items(length);
                judge_with(&mut run, &bundle, &table, expected);
            }
        }
    }
    run.finish(&[(0, 100), (4, 180), (5, 200), (6, 50), (7, 50), (12, 50)]);
}

/// Whatever the table held before, also rows of the same log or of another.
#[test]
fn table_contents() {
    let mut run = Run::start("table_contents");
    for _ in 0..run.cases(100) {
        let certified = small_certified(&mut run.rng);
        let bundle = certified.bundle.bytes();
        let cut = &bundle[..run.rng.within(1..=bundle.len() - 1)];
        let (cut_outcome, _) = judge_by_definitions(cut);
        let (n, words) = small_log(&mut run.rng);
        let mut masks_only = vec![0; TABLE];
        for mask in masks_only.iter_mut().skip(MAX_EVENTS).step_by(ROW) {
            *mask = 65_535;
        }
        for table in [
            vec![0; TABLE],
            vec![65_535; TABLE],
            run.rng.items(TABLE),
            masks_only,
            table_of(certified.bundle.n, &certified.bundle.words),
            table_of(n, &words),
        ] {
            judge_with(&mut run, &bundle, &table, Ok(certified.counts));
            judge_with(&mut run, cut, &table, cut_outcome);
        }
    }
    run.finish(&[(0, 600), (6, 600)]);
}
