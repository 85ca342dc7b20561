//! `hov replay`.

#[path = "support/replaying.rs"]
mod replaying;
mod support;

use differential::bundles::{Bundle, SAMPLE_H};
use differential::faults::BlockFault;
use differential::files::build;
use differential::run::Run;
use differential::screening::{any_net, Kind, MAX_WORD_EVENTS};
use replaying::{idleness, played, tokens_line};
use std::fs::{self, File};
use support::{command, directory, hov, hov_unread, hov_with, refused, Done};

const A: &str = "samples/a.sealed";
const SALES: &str = "samples/sales.sealed";

/// The result of `hov replay` with these events.
fn replay(file: &str, events: &[&str]) -> Done {
    hov(&[["replay", file].as_slice(), events].concat())
}

/// Checks the status and the lines of standard output.
fn expect(file: &str, events: &[&str], status: i32, lines: &[&str]) {
    let text = lines.join("\n") + "\n";
    assert_eq!(replay(file, events), Done::new(status, &text, ""), "{file}");
}

const IDLE: &str = "idle: each place has its initial tokens";

#[test]
fn permitted_words() {
    expect(A, &[], 0, &["at first: 1 2", "permitted", IDLE]);
    let lines = [
        "at first: 1 2",
        "after event 0: 1 1",
        "after event 1: 0 1",
        "permitted",
        "not idle: place 0 has 0, at first 1",
    ];
    expect(A, &["0", "1"], 0, &lines);
    let lines = [
        "at first: 1 0",
        "after event 0: 0 1",
        "after event 1: 1 0",
        "permitted",
        IDLE,
    ];
    expect(SALES, &["0", "1"], 0, &lines);
    // The judge refuses these two.
    let lines = [
        "at first: 1 0",
        "after event 0: 0 2",
        "after event 1: 1 1",
        "permitted",
        "not idle: place 1 has 1, at first 0",
    ];
    expect("samples/unbalanced.sealed", &["0", "1"], 0, &lines);
    let lines = [
        "at first: no places",
        "after event 0: no places",
        "permitted",
        IDLE,
    ];
    expect("samples/f.sealed", &["0"], 0, &lines);
}

#[test]
fn stopped_words() {
    let lines = [
        "at first: 1 2",
        "after event 0: 1 1",
        "after event 0: 1 0",
        "stopped 2 1 1: event 0 at position 2, refused by place 1; 1 token missing",
        "not idle: place 1 has 0, at first 2",
    ];
    expect(A, &["0", "0", "0", "1"], 1, &lines);
    // An event that is stopped leaves the terminal as it was.
    let lines = [
        "at first: 1 0",
        "stopped 0 1 1: event 1 at position 0, refused by place 1; 1 token missing",
        IDLE,
    ];
    expect(SALES, &["1"], 1, &lines);
}

/// The first event that is not there is refused behind those that were played.
#[test]
fn numbers() {
    let before = "at first: 1 2\nafter event 0: 1 1\n";
    let behind = "not idle: place 1 has 1, at first 2\n";
    let refused = refused(15, 1, A);
    let expected = Done::new(1, &format!("{before}{refused}{behind}"), "");
    for number in ["2", "255", "256", "65536", "99999999999999999999"] {
        assert_eq!(replay(A, &["0", number, "0"]), expected, "{number}");
    }
    for wrong in ["", "x", "+1", "000000000000000000001", "-"] {
        for file in [A, "missing"] {
            let done = replay(file, &["0", wrong]);
            assert_eq!((done.status, done.output.as_str()), (2, ""), "{wrong:?}");
            let starts = "hov: no event of 1 to 20 digits: '";
            assert!(done.errors.starts_with(starts), "{wrong:?}: {done:?}");
        }
    }
}

#[test]
fn wrong_files() {
    let missing = "hov: missing: No such file or directory\n";
    assert_eq!(replay("missing", &["0"]), Done::new(3, "", missing));
    let zeros = refused(1, 0, "/dev/zero");
    assert_eq!(replay("/dev/zero", &[]), Done::new(1, &zeros, ""));
    for (file, number, spot) in [
        ("samples/damaged.sealed", 2, 0),
        ("samples/shuffled.sealed", 17, 1),
        ("samples/joined.sealed", 18, 0),
    ] {
        let line = refused(number, spot, file);
        assert_eq!(replay(file, &["0"]), Done::new(1, &line, ""));
    }
}

#[test]
fn standard_input() {
    let (status, output, errors) = hov_with(&["replay", "-", "0"], &build(&SAMPLE_H));
    let lines = b"at first: no places\nafter event 0: no places\npermitted\n";
    assert_eq!((status, errors.as_str()), (0, ""));
    assert!(output.starts_with(lines), "{output:?}");
    let done = replay("-", &["0"]);
    assert_eq!(done, Done::new(1, &refused(1, 0, "-"), ""));
}

/// As many events as a word can have, and one more: it is refused with 14 behind them.
#[test]
fn longest_words() {
    let f = "samples/f.sealed";
    let mut events = vec!["0"; MAX_WORD_EVENTS];
    let lines = "after event 0: no places\n".repeat(MAX_WORD_EVENTS);
    let idle = "idle: each place has its initial tokens\n";
    let played = format!("at first: no places\n{lines}");
    let expected = format!("{played}permitted\n{idle}");
    assert_eq!(replay(f, &events), Done::new(0, &expected, ""));
    events.push("0");
    let expected = format!("{played}{}{idle}", refused(14, 65_535, f));
    assert_eq!(replay(f, &events), Done::new(1, &expected, ""));
}

/// What `hov replay` owes for a word of events that are there, by the sums of counts.
fn owed(bundle: &Bundle, word: &[u8]) -> Done {
    let at_first = tokens_line("at first", bundle, &[]);
    let (lines, end, is_stopped) = played(bundle, word, 0, "");
    let idleness = idleness(bundle, &word[..end]);
    match is_stopped {
        true => Done::new(1, &format!("{at_first}{lines}{idleness}"), ""),
        false => Done::new(0, &format!("{at_first}{lines}permitted\n{idleness}"), ""),
    }
}

/// Words of every kind on any nets.
#[test]
fn generated_words() {
    let mut run = Run::start("hov_replay_generated_words");
    let path = directory("replay_generated_words").join("file");
    let name = path.to_str().expect("a name in text");
    for _ in 0..run.cases(40) {
        let (bundle, _) = any_net(&mut run.rng);
        fs::write(&path, build(&bundle.bytes())).expect("the file is written");
        for kind in Kind::ALL {
            let word = kind.word(&mut run.rng, &bundle);
            let events: Vec<String> = word.iter().map(u8::to_string).collect();
            let events: Vec<&str> = events.iter().map(String::as_str).collect();
            let owed = owed(&bundle, &word);
            run.note(match owed.status {
                0 => "permitted",
                _ => "stopped",
            });
            assert_eq!(replay(name, &events), owed, "{word:?}, {run}");
        }
    }
    run.finish_with_classes(&[], &[("permitted", 50), ("stopped", 30)]);
}

/// Files that do not open: the lowest faulty block.
#[test]
fn faulty_files() {
    let mut run = Run::start("hov_replay_faulty_files");
    let path = directory("replay_faulty_files").join("file");
    let name = path.to_str().expect("a name in text");
    for fault in BlockFault::ALL {
        let (file, refusal) = fault.file(&mut run.rng);
        fs::write(&path, file).expect("the file is written");
        let line = refused(refusal.number, refusal.spot, name);
        assert_eq!(replay(name, &["0"]), Done::new(1, &line, ""), "{run}");
    }
}

#[test]
fn output_that_takes_nothing() {
    for events in [vec!["0", "1"], vec!["1", "0"], vec!["2"]] {
        let arguments = [vec!["replay", A], events].concat();
        let full = File::create("/dev/full").expect("a device that is full");
        let mut command = command(&arguments);
        let done = Done::of(command.stdout(full).output().expect("hov runs"));
        let error = "hov: standard output: No space left on device\n";
        assert_eq!(done, Done::new(3, "", error));
    }
    assert_eq!(hov_unread(&["replay", A, "0"]), Done::new(3, "", ""));
}
