//! `hov reach`.

mod support;

use differential::bundles::SAMPLE_NEW;
use differential::faults::BlockFault;
use differential::files::build;
use differential::reaching::{any_wanted, few_tokens, Shape, MOST};
use differential::run::{Outcome, Run};
use differential::vectors::{reached_line, Cases};
use std::fs;
use std::path::Path;
use support::{directory, hov, hov_unread, hov_with, refused, sealed, Done};

const A: &str = "samples/a.sealed";
const SALES: &str = "samples/sales.sealed";

/// The result of `hov reach` with this event.
fn reach(file: &str, wanted: &str) -> Done {
    hov(&["reach", file, wanted])
}

/// What `hov reach` owes for an answer.
fn owed(answer: Outcome<Option<Vec<u8>>>, wanted: usize, name: &str) -> Done {
    let line = match answer {
        Ok(None) => {
            let line = format!("none: no word of at most 5 events leads to event {wanted}\n");
            return Done::new(1, &line, "");
        }
        Err(refusal) => {
            return Done::new(1, &refused(refusal.number, refusal.spot, name), "");
        }
        Ok(Some(word)) => {
            let events: Vec<String> = word.iter().map(u8::to_string).collect();
            let events = events.join(" ");
            match word.len() {
                0 => format!("reached: event {wanted} is permitted at first\n"),
                1 => {
                    format!("reached {events}: event {wanted} is permitted after event {events}\n")
                }
                _ => {
                    format!("reached {events}: event {wanted} is permitted after events {events}\n")
                }
            }
        }
    };
    Done::new(0, &line, "")
}

#[test]
fn samples() {
    let good = |line: &str| Done::new(0, &format!("{line}\n"), "");
    for (file, wanted, line) in [
        (A, "0", "reached: event 0 is permitted at first"),
        (A, "1", "reached: event 1 is permitted at first"),
        (SALES, "0", "reached: event 0 is permitted at first"),
        (SALES, "1", "reached 0: event 1 is permitted after event 0"),
        // The judge refuses this one.
        (
            "samples/f.sealed",
            "0",
            "reached: event 0 is permitted at first",
        ),
    ] {
        assert_eq!(reach(file, wanted), good(line), "{file} {wanted}");
    }
    let none = "none: no word of at most 5 events leads to event 0\n";
    assert_eq!(reach("samples/e.sealed", "0"), Done::new(1, none, ""));
}

/// Every number of 1 to 20 digits is taken, and none that is n or more is an event.
#[test]
fn numbers() {
    let expected = Done::new(1, &refused(15, 0, A), "");
    for number in [
        "2",
        "255",
        "256",
        "257",
        "65536",
        "4294967296",
        "18446744073709551616",
        "99999999999999999999",
    ] {
        assert_eq!(reach(A, number), expected, "{number}");
    }
    let done = reach(A, "00000000000000000001");
    assert_eq!(done, reach(A, "1"));
    for wrong in ["", "x", "+1", "0 1", "000000000000000000001", "-"] {
        // The arguments are looked at before the file.
        for file in [A, "missing", "samples/damaged.sealed"] {
            let done = reach(file, wrong);
            assert_eq!((done.status, done.output.as_str()), (2, ""), "{wrong:?}");
            let starts = "hov: no event of 1 to 20 digits: '";
            assert!(done.errors.starts_with(starts), "{wrong:?}: {done:?}");
        }
    }
}

#[test]
fn wrong_files() {
    let missing = "hov: missing: No such file or directory\n";
    assert_eq!(reach("missing", "0"), Done::new(3, "", missing));
    for (file, number, spot) in [
        ("samples/damaged.sealed", 2, 0),
        ("samples/shuffled.sealed", 17, 1),
        ("samples/joined.sealed", 18, 0),
    ] {
        let line = refused(number, spot, file);
        assert_eq!(reach(file, "0"), Done::new(1, &line, ""));
        // Opening comes before the event.
        assert_eq!(reach(file, "99"), Done::new(1, &line, ""));
    }
}

#[test]
fn standard_input() {
    let (status, output, errors) = hov_with(&["reach", "-", "1"], &build(&SAMPLE_NEW));
    assert_eq!((status, errors.as_str()), (0, ""));
    assert_eq!(output, b"reached 0: event 1 is permitted after event 0\n");
    let done = reach("-", "0");
    assert_eq!(done, Done::new(1, &refused(1, 0, "-"), ""));
}

/// Words of each length, and those of six, which are none.
#[test]
fn every_length() {
    let mut run = Run::start("hov_reach_every_length");
    let directory = directory("reach_every_length");
    for shape in Shape::ALL {
        for length in 0..=MOST + 1 {
            let goal = shape.goal(&mut run.rng, MOST + 2, length);
            let name = sealed(&directory, "file", &goal.bundle.bytes());
            let answer = Ok((length <= MOST).then_some(goal.word));
            let owed = owed(answer, goal.wanted, &name);
            assert_eq!(reach(&name, &goal.wanted.to_string()), owed, "{run}");
        }
    }
}

/// Any nets, against the reference; a line that finds a word is one that `hov screen` takes.
#[test]
fn generated_nets() {
    let mut run = Run::start("hov_reach_generated_nets");
    let directory = directory("reach_generated_nets");
    for _ in 0..run.cases(300) {
        let (bundle, wanted) = few_tokens(&mut run.rng);
        let wanted = match run.rng.below(2) {
            0 => any_wanted(&mut run.rng, bundle.n),
            _ => wanted,
        };
        let bytes = bundle.bytes();
        let name = sealed(&directory, "file", &bytes);
        let answer = run.reach(&bytes, wanted);
        let done = reach(&name, &wanted.to_string());
        assert_eq!(done, owed(answer.clone(), wanted, &name), "{run}");
        if let Ok(Some(_)) = answer {
            let (events, _) = done.output.split_once(':').expect("a word in front");
            let last = wanted.to_string();
            let events = events.split(' ').skip(1).chain([last.as_str()]);
            let arguments: Vec<&str> = ["screen", &name].into_iter().chain(events).collect();
            assert_eq!(hov(&arguments), Done::new(0, "permitted\n", ""), "{run}");
        }
    }
    run.finish_with_classes(
        &[(15, 10)],
        &[("no event", 30), ("1 event", 5), ("none", 40)],
    );
}

/// Files that do not open: the lowest faulty block.
#[test]
fn faulty_files() {
    let mut run = Run::start("hov_reach_faulty_files");
    let path = directory("reach_faulty_files").join("file");
    let name = path.to_str().expect("a name in text");
    for fault in BlockFault::ALL {
        let (file, refusal) = fault.file(&mut run.rng);
        fs::write(&path, file).expect("the file is written");
        let line = refused(refusal.number, refusal.spot, name);
        assert_eq!(reach(name, "0"), Done::new(1, &line, ""), "{run}");
    }
}

/// The answers of another implementation.
#[test]
fn cases_with_answers() {
    let directory = directory("reach_cases_with_answers");
    let data = Path::new(env!("CARGO_MANIFEST_DIR")).join("../differential/tests/data/12.txt");
    let cases = Cases::read(&fs::read_to_string(data).expect("the cases"));
    let mut reached = 0;
    for case in cases.of("reach") {
        let [bundle, wanted] = case.arguments();
        let (bundle, wanted) = (bundle.bytes(), wanted.number());
        if bundle.is_empty() || bundle.len() > 64_512 {
            continue; // No sealed file has such a bundle.
        }
        let answer = reference::reach(&bundle, wanted);
        assert_eq!(reached_line(answer.clone()), case.answer);
        let name = sealed(&directory, "file", &bundle);
        let done = reach(&name, &wanted.to_string());
        assert_eq!(done, owed(answer, wanted, &name), "{}", case.answer);
        reached += 1;
    }
    assert_eq!(reached, 119);
}

#[test]
fn output_that_nobody_reads() {
    for (file, wanted) in [(SALES, "1"), ("samples/e.sealed", "0"), (A, "2")] {
        let done = hov_unread(&["reach", file, wanted]);
        assert_eq!(done, Done::new(3, "", ""), "{file} {wanted}");
    }
}
