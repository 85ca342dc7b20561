//! The cases of `tests/data`, on which two other implementations agree: every case is
//! run on both sides and compared, the answer and what is left in lent memory. The file
//! is the one with the newest request in force, which has all calls. Those of the carried
//! engine are in `vectors_engine.rs`.

use differential::files::{BLOCK, MAX_BLOCKS, MAX_BUNDLE_SIZE};
use differential::judging::judge;
use differential::logs::{ROW, TABLE};
use differential::reaching::reach;
use differential::rewriting::{keeps_table, rewrite, Rewrite};
use differential::run::{Outcome, Run};
use differential::screening::{screen, screen_joined};
use differential::vectors::{
    line, reached_line, rows_line, screened_line, table_line, written_line, Case, Cases,
};

const FILE: &str = include_str!("data/12.txt");

/// The calls of the file, with how many cases each has. Each has a test.
const COUNTS: [(&str, usize); 17] = [
    ("carry", 14),
    ("judge", 120),
    ("judge_lent", 249),
    ("log", 40),
    ("prune", 19),
    ("prune_lent", 20),
    ("reach", 124),
    ("replace", 17),
    ("replace_lent", 161),
    ("screen", 80),
    ("screen_joined", 109),
    ("start_lent", 39),
    ("step_lent", 126),
    ("to_new", 21),
    ("to_new_lent", 30),
    ("to_old", 23),
    ("to_old_lent", 29),
];

#[test]
fn every_case() {
    assert_eq!(Cases::read(FILE).counts(), COUNTS);
}

fn cases(call: &str) -> Vec<Case> {
    Cases::read(FILE).of(call).to_vec()
}

/// The numbers of answers that are listed, 0 standing for results, are those of all
/// cases of a call.
fn all_of(call: &str, numbers: &[(u8, usize)]) {
    let count: usize = numbers.iter().map(|(_, count)| count).sum();
    assert!(COUNTS.contains(&(call, count)), "{call}: {count}");
}

#[test]
fn judged() {
    let mut run = Run::start("vectors::judged");
    for case in cases("judge") {
        let [file] = case.arguments();
        let opened = run.open(&file.bytes(), MAX_BUNDLE_SIZE);
        let answer = opened
            .outcome
            .and_then(|length| judge(&mut run, &opened.output[..length]));
        assert_eq!(line(answer), case.answer, "{run}");
    }
    let of_files = [(1, 2), (17, 2), (18, 2)];
    let of_fields = [(6, 12), (7, 28)];
    let of_nets = [(10, 23), (20, 7), (11, 4), (12, 12)];
    let refused = [of_files.as_slice(), &of_fields, &of_nets].concat();
    all_of("judge", &[refused.as_slice(), &[(0, 28)]].concat());
    // Each file that is opened, and each bundle that is accepted.
    run.finish(&[refused.as_slice(), &[(0, 114 + 28)]].concat());
}

/// Each file that opens is the one that sealing makes of its bundle, whatever the
/// output held.
#[test]
fn sealed_again() {
    let mut run = Run::start("vectors::sealed_again");
    for case in cases("judge") {
        let [file] = case.arguments();
        let file = file.bytes();
        let opened = run.open(&file, MAX_BUNDLE_SIZE);
        if let Ok(length) = opened.outcome {
            let sealed = run.seal(&opened.output[..length], MAX_BLOCKS * BLOCK);
            assert_eq!(sealed.outcome, Ok(file.len()), "{run}");
            assert!(sealed.output[..file.len()] == file, "{run}");
        }
    }
    run.finish(&[(0, 2 * 114)]);
}

/// The answer, and the lent table afterwards.
#[test]
fn judged_with_lent_table() {
    let mut run = Run::start("vectors::judged_with_lent_table");
    for case in cases("judge_lent") {
        let [bundle, table_len] = case.arguments();
        let judged = run.judge(&bundle.bytes(), &table_len.lent::<u16>());
        let table = table_line(&judged.table, judged.outcome.is_ok());
        let answer = format!("{} {table}", line(judged.outcome));
        assert_eq!(answer, case.answer, "{run}");
    }
    let by_length = [(0, 33), (4, 5), (5, 4)];
    let of_fields = [(6, 18), (7, 54), (8, 6), (9, 2), (13, 3)];
    let of_nets = [(10, 58), (20, 26), (11, 5), (12, 35)];
    let numbers = [by_length.as_slice(), &of_fields, &of_nets].concat();
    all_of("judge_lent", &numbers);
    run.finish(&numbers);
}

/// Runs the cases of a call that writes a bundle anew. Each is tried with outputs of 6
/// lengths, two of them too short, and tables of 4, two of them too short. Notes the results
/// that are not as long as the bundle.
fn rewritten(run: &mut Run, call: Rewrite, name: &str) {
    for case in cases(name) {
        let [bundle] = case.arguments();
        let bundle = bundle.bytes();
        let answer = rewrite(run, call, &bundle);
        if matches!(&answer, Ok(result) if result.len() != bundle.len()) {
            run.note("another length");
        }
        let answer = answer.as_deref().map_err(|refusal| *refusal);
        assert_eq!(written_line(answer), case.answer, "{run}");
    }
}

/// Runs the cases of such a call that have a lent output and a lent table: the answer with the
/// bytes that are written, and the table afterwards, which has the log's rows also where
/// judging does not refuse and there is no result.
fn rewritten_with_lent_memory(run: &mut Run, call: Rewrite, name: &str) {
    for case in cases(name) {
        let [bundle, output_len, table_len] = case.arguments();
        let bundle = bundle.bytes();
        let done = run.rewrite_into(call, &bundle, output_len.lent(), &table_len.lent::<u16>());
        let written: Outcome<&[u8]> = done.outcome.map(|length| &done.output[..length]);
        let has_rows = match done.outcome {
            Ok(_) => true,
            Err(refused) => {
                let of_result = [3, 4, 21].contains(&refused.number);
                of_result && !keeps_table(&bundle, refused.number)
            }
        };
        let answer = format!(
            "{} {}",
            written_line(written),
            table_line(&done.table, has_rows)
        );
        assert_eq!(answer, case.answer, "{run}");
    }
}

#[test]
fn pruned() {
    let mut run = Run::start("vectors::pruned");
    rewritten(&mut run, Rewrite::Prune, "prune");
    let refused = [(7, 1), (10, 1), (11, 2), (13, 2)];
    all_of("prune", &[&[(0, 13)], refused.as_slice()].concat());
    let written = [(0, 13 * 8), (3, 13 * 4), (5, 19 * 12)];
    let refused = refused.map(|(number, cases)| (number, cases * 12));
    let numbers = [written.as_slice(), &refused].concat();
    run.finish_with_classes(&numbers, &[("another length", 8)]);
}

#[test]
fn pruned_with_lent_memory() {
    let mut run = Run::start("vectors::pruned_with_lent_memory");
    rewritten_with_lent_memory(&mut run, Rewrite::Prune, "prune_lent");
    let written = [(0, 2), (3, 9), (5, 2)];
    let refused = [(6, 1), (7, 1), (10, 1), (11, 2), (13, 2)];
    let numbers = [written.as_slice(), &refused].concat();
    all_of("prune_lent", &numbers);
    run.finish(&numbers);
}

#[test]
fn converted_to_new() {
    let mut run = Run::start("vectors::converted_to_new");
    rewritten(&mut run, Rewrite::ToNew, "to_new");
    let refused = [(7, 1), (10, 1), (11, 1), (13, 2), (20, 1)];
    all_of("to_new", &[&[(0, 15)], refused.as_slice()].concat());
    let written = [(0, 15 * 8), (3, 15 * 4), (5, 21 * 12)];
    let refused = refused.map(|(number, cases)| (number, cases * 12));
    let numbers = [written.as_slice(), &refused].concat();
    run.finish_with_classes(&numbers, &[("another length", 7)]);
}

#[test]
fn converted_to_new_with_lent_memory() {
    let mut run = Run::start("vectors::converted_to_new_with_lent_memory");
    rewritten_with_lent_memory(&mut run, Rewrite::ToNew, "to_new_lent");
    let written = [(0, 6), (3, 12), (4, 1), (5, 2)];
    let of_fields = [(6, 1), (7, 1), (13, 2)];
    let of_nets = [(10, 1), (20, 1), (11, 1), (12, 2)];
    let numbers = [written.as_slice(), &of_fields, &of_nets].concat();
    all_of("to_new_lent", &numbers);
    run.finish(&numbers);
}

#[test]
fn converted_to_old() {
    let mut run = Run::start("vectors::converted_to_old");
    rewritten(&mut run, Rewrite::ToOld, "to_old");
    let refused = [(7, 1), (10, 1), (11, 1), (12, 1), (13, 2), (21, 6)];
    all_of("to_old", &[&[(0, 11)], refused.as_slice()].concat());
    let written = [(0, 11 * 8), (3, 11 * 4), (5, 23 * 12)];
    let refused = refused.map(|(number, cases)| (number, cases * 12));
    let numbers = [written.as_slice(), &refused].concat();
    run.finish_with_classes(&numbers, &[("another length", 7)]);
}

#[test]
fn converted_to_old_with_lent_memory() {
    let mut run = Run::start("vectors::converted_to_old_with_lent_memory");
    rewritten_with_lent_memory(&mut run, Rewrite::ToOld, "to_old_lent");
    let written = [(0, 5), (21, 4), (3, 8), (4, 1), (5, 1)];
    let of_fields = [(6, 1), (7, 2), (8, 1), (13, 2)];
    let of_nets = [(10, 1), (20, 1), (11, 1), (12, 1)];
    let numbers = [written.as_slice(), &of_fields, &of_nets].concat();
    all_of("to_old_lent", &numbers);
    run.finish(&numbers);
}

#[test]
fn screened() {
    let mut run = Run::start("vectors::screened");
    for case in cases("screen") {
        let [bundle, word] = case.arguments();
        let answer = screen(&mut run, &bundle.bytes(), &word.bytes());
        assert_eq!(screened_line(answer), case.answer, "{run}");
    }
    let numbers = [(0, 37), (14, 12), (4, 4), (6, 5), (7, 4), (8, 3), (15, 15)];
    all_of("screen", &numbers);
    run.finish_with_classes(&numbers, &[("permitted", 28), ("stopped", 9)]);
}

#[test]
fn screened_on_two_nets() {
    let mut run = Run::start("vectors::screened_on_two_nets");
    for case in cases("screen_joined") {
        let [first, second, word] = case.arguments();
        let answer = screen_joined(&mut run, &first.bytes(), &second.bytes(), &word.bytes());
        assert_eq!(screened_line(answer), case.answer, "{run}");
    }
    let answered = [(0, 17), (19, 15), (15, 7)];
    let refused = [(14, 11), (4, 8), (6, 20), (7, 23), (8, 8)];
    let numbers = [answered.as_slice(), &refused].concat();
    all_of("screen_joined", &numbers);
    run.finish_with_classes(&numbers, &[("permitted", 8), ("stopped", 9)]);
}

#[test]
fn reached() {
    let mut run = Run::start("vectors::reached");
    for case in cases("reach") {
        let [bundle, wanted] = case.arguments();
        let answer = reach(&mut run, &bundle.bytes(), wanted.number());
        assert_eq!(reached_line(answer), case.answer, "{run}");
    }
    let numbers = [(0, 90), (4, 5), (6, 8), (7, 8), (8, 3), (15, 10)];
    all_of("reach", &numbers);
    let few = [("no event", 13), ("1 event", 13), ("2 events", 14)];
    let many = [("3 events", 15), ("4 events", 11), ("5 events", 10)];
    let classes = [few.as_slice(), &many, &[("none", 14)]].concat();
    run.finish_with_classes(&numbers, &classes);
}

/// The words of a log leave these rows in a table that held anything.
#[test]
fn logs() {
    let mut run = Run::start("vectors::logs");
    for case in cases("log") {
        let mut arguments = case.all();
        let n = arguments.next().expect("an event count").number();
        let fresh = run.fresh(n, &[9; TABLE]);
        let mut summary = fresh.outcome.expect("an allowed event count");
        let mut table = fresh.table;
        for word in arguments {
            let taken = run.take(summary, &word.bytes(), &table);
            summary = taken.outcome.expect("few rows and events");
            table = taken.table;
        }
        let rows = &table[..summary.rows * ROW];
        assert_eq!(rows_line(summary.rows, rows), case.answer, "{run}");
    }
    run.finish(&[(0, 40)]);
}
