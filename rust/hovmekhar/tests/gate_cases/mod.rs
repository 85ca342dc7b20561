//! What the program `gate` does, in C and in Rust: one table for both.

#[path = "../closed_pipe/mod.rs"]
mod closed_pipe;

use closed_pipe::closed_pipe;
use std::fs::{self, File};
use std::io::{self, Write};
use std::path::{Path, PathBuf};
use std::process::{Command, Output, Stdio};

/// What a program did: its status, and what it wrote to standard output and to
/// standard error.
#[derive(Debug, PartialEq, Eq)]
struct Done {
    status: Option<i32>,
    output: String,
    errors: String,
}

impl From<Output> for Done {
    fn from(done: Output) -> Self {
        let text = |bytes| String::from_utf8(bytes).expect("it prints text");
        Self {
            status: done.status.code(),
            output: text(done.stdout),
            errors: text(done.stderr),
        }
    }
}

fn expected(status: i32, output: &str, errors: &str) -> Done {
    let lines = |lines: &str| match lines {
        "" => String::new(),
        _ => format!("{lines}\n"),
    };
    Done {
        status: Some(status),
        output: lines(output),
        errors: lines(errors),
    }
}

const BLOCK_SUMS: &str = "gate: a block's sums are wrong";
const BLOCK_NUMBER: &str = "gate: a block's number is not its position";
const BLOCK_USE: &str = "gate: a block's used count is wrong, or an unused byte is not zero";
const BUNDLE_END: &str = "gate: the bundle ends before or inside a field";
const FILE_LENGTH: &str = "gate: the file's length is 0, no multiple of 512, or above 65,536";
const WORD_EVENT: &str = "gate: an event of the word, or the wanted one, is not below n";
const WORD_LENGTH: &str = "gate: the events of the word would pass 65,535";
const NO_SPACE: &str = "gate: standard output: No space left on device (os error 28)";
const CLOSED: &str = "gate: standard output: Broken pipe (os error 32)";

/// A sample file, the events, the status, the lines of standard output and those
/// of standard error.
type Case = (
    &'static str,
    &'static [&'static str],
    i32,
    &'static str,
    &'static str,
);

#[rustfmt::skip]
const CASES: &[Case] = &[
    // The words B, C and D, and others that are permitted.
    ("a.sealed", &["0", "1"], 0, "accepted 5 4 5 1\npermitted", ""),
    ("a.sealed", &["1", "0"], 1, "accepted 5 4 5 1\nstopped 1 0 1", ""),
    ("a.sealed", &["0", "0", "0"], 1, "accepted 5 4 5 1\nstopped 2 1 1", ""),
    ("a.sealed", &[], 0, "accepted 5 4 5 1\npermitted", ""),
    ("a.sealed", &["00", "000", "001"], 0, "accepted 5 4 5 1\npermitted", ""),
    // The other samples.
    ("e.sealed", &[], 0, "accepted 1 0 1 0\npermitted", ""),
    ("e.sealed", &["0"], 1, "accepted 1 0 1 0\nstopped 0 0 1", ""),
    ("several.sealed", &["0"], 0, "accepted 43 42 177 39\npermitted", ""),
    ("several.sealed", &["1", "3"], 1, "accepted 43 42 177 39\nstopped 1 8 46", ""),
    ("f.sealed", &["0"], 1, "refused 6 3", BUNDLE_END),
    ("damaged.sealed", &["0"], 1, "refused 2 0", BLOCK_SUMS),
    ("shuffled.sealed", &["0"], 1, "refused 17 1", BLOCK_NUMBER),
    ("joined.sealed", &["0"], 1, "refused 18 0", BLOCK_USE),
    // A file that is no sealed file.
    ("README.md", &[], 1, "refused 1 0", FILE_LENGTH),
    // Events that are numbers, but not of this net.
    ("a.sealed", &["2"], 1, "accepted 5 4 5 1\nrefused 15 0", WORD_EVENT),
    ("a.sealed", &["0", "255"], 1, "accepted 5 4 5 1\nrefused 15 1", WORD_EVENT),
];

/// Arguments that are no events.
const NO_EVENTS: &[&str] = &[
    "256", "999", "0000", "0001", "-1", "+1", "-0", " 1", "1 ", "1\n", "x", "1x", "", "٣", "0x1",
];

fn sample(name: &str) -> PathBuf {
    Path::new(env!("CARGO_MANIFEST_DIR"))
        .join("../../samples")
        .join(name)
}

/// Runs all cases.
pub fn check(program: &Path) {
    let run = |file: &Path, events: &[&str]| -> Done {
        let done = Command::new(program).arg(file).args(events).output();
        done.expect("the program runs").into()
    };

    for &(name, events, status, output, errors) in CASES {
        let file = sample(name);
        let answer = expected(status, output, errors);
        assert_eq!(run(&file, events), answer, "{name} {events:?}");

        // An answer that is not written is none, but its sentence is not lost.
        for (message, output) in [(NO_SPACE, full()), (CLOSED, closed_pipe())] {
            let mut gate = Command::new(program);
            gate.arg(&file).args(events).stdout(output);
            let done: Done = gate.output().expect("the program runs").into();
            let errors = format!("{}{message}", answer.errors);
            assert_eq!(done, expected(3, "", &errors), "{name} {events:?}");
        }
    }

    // Arguments are looked at before the file is.
    let usage = expected(2, "", "usage: gate FILE EVENT...");
    let done = Command::new(program).output().expect("the program runs");
    assert_eq!(Done::from(done), usage);
    for name in ["a.sealed", "missing"] {
        for (events, position) in NO_EVENTS
            .iter()
            .flat_map(|&wrong| [(vec![wrong], 0), (vec!["0", wrong, "x"], 1)])
        {
            let sentence = "is not a number from 0 to 255";
            let errors = format!("gate: the event at position {position} {sentence}");
            let usage = expected(2, "", &errors);
            assert_eq!(run(&sample(name), &events), usage, "{events:?}");
        }
    }

    for (name, reason) in [
        ("missing", "No such file or directory (os error 2)"),
        (".", "Is a directory (os error 21)"),
        ("a.sealed/a", "Not a directory (os error 20)"),
    ] {
        let file = sample(name);
        let errors = format!("gate: {}: {reason}", file.display());
        assert_eq!(run(&file, &["0"]), expected(3, "", &errors));
    }
    let nameless = expected(3, "", "gate: : No such file or directory (os error 2)");
    assert_eq!(run(Path::new(""), &[]), nameless);

    // A message that nobody reads changes neither the answer nor the status.
    for (name, event, answer) in [
        ("damaged.sealed", "0", expected(1, "refused 2 0", "")),
        ("missing", "0", expected(3, "", "")),
        ("a.sealed", "x", expected(2, "", "")),
    ] {
        for errors in [full(), closed_pipe()] {
            let mut gate = Command::new(program);
            gate.arg(sample(name)).arg(event).stderr(errors);
            let done: Done = gate.output().expect("the program runs").into();
            assert_eq!(done, answer, "{name} {event}");
        }
    }

    check_lengths(program);
}

/// Files and words of lengths about the largest that are allowed. They are lent by
/// standard input, so that no file has to be written.
fn check_lengths(program: &Path) {
    let a = fs::read(sample("a.sealed")).expect("samples/a.sealed");
    let ask = |file: &[u8], events: &[&str]| -> Done {
        let mut gate = Command::new(program)
            .arg("/dev/stdin")
            .args(events)
            .stdin(Stdio::piped())
            .stdout(Stdio::piped())
            .stderr(Stdio::piped())
            .spawn()
            .expect("the program runs");
        let mut input = gate.stdin.take().expect("a pipe");
        match input.write_all(file) {
            // It need not read more than the longest file and a byte.
            Err(error) if error.kind() == io::ErrorKind::BrokenPipe => {}
            result => result.expect("it reads"),
        }
        drop(input);
        gate.wait_with_output().expect("the program ends").into()
    };

    // The first block says that it is the last, so that block 1 would be too many.
    let of_length = |length: usize| [a.clone(), vec![0; length - a.len()]].concat();
    let length = expected(1, "refused 1 0", FILE_LENGTH);
    let block = expected(1, "refused 18 0", BLOCK_USE);
    assert_eq!(ask(&[], &[]), length);
    assert_eq!(ask(&a[..511], &[]), length);
    assert_eq!(ask(&of_length(513), &[]), length);
    assert_eq!(ask(&of_length(65_536), &[]), block);
    assert_eq!(ask(&of_length(65_537), &[]), length);
    assert_eq!(ask(&of_length(65_536 + 512), &[]), length);
    assert_eq!(ask(&of_length(1 << 20), &[]), length);

    let answer = |line: &str| format!("accepted 5 4 5 1\n{line}");
    let longest = ["0"; 65_535];
    let stopped = expected(1, &answer("stopped 2 1 1"), "");
    let refused = expected(1, &answer("refused 14 65535"), WORD_LENGTH);
    assert_eq!(ask(&a, &longest), stopped);
    assert_eq!(ask(&a, &["0"; 65_536]), refused);
    assert_eq!(ask(&a, &["0"; 70_000]), refused);
    let unread = [["0"; 65_536].as_slice(), &["x"]].concat();
    let usage = "gate: the event at position 65536 is not a number from 0 to 255";
    assert_eq!(ask(&a, &unread), expected(2, "", usage));
}

/// A standard output that takes nothing.
fn full() -> Stdio {
    File::create("/dev/full")
        .expect("a device that is full")
        .into()
}
