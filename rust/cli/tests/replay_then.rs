//! `hov replay` with a net in place of another.

mod support;

use differential::bundles::SAMPLE_A;
use differential::files::build;
use differential::screening::ONE_FOLLOWS;
use support::{directory, hov, hov_in, hov_unread, hov_with, refused, sealed, stopped, Done};

const A: &str = "samples/a.sealed";
const IDLE: &str = "idle: each place has its initial tokens";

/// Checks the status and the lines of standard output.
fn expect(arguments: &[&str], status: i32, lines: &[&str]) {
    let done = hov(&[["replay"].as_slice(), arguments].concat());
    let text = lines.join("\n") + "\n";
    assert_eq!(done, Done::new(status, &text, ""), "{arguments:?}");
}

/// The net of the other file goes on with its own tokens behind the events so far, and is idle
/// with its own initial ones.
#[test]
fn replaced_nets() {
    let b = &sealed(&directory("replaced_nets"), "b", &ONE_FOLLOWS);
    let by_b = |tokens: &str| format!("replaced by {b}: {tokens}");
    let lines = [
        "at first: 1 2",
        "after event 0: 1 1",
        &by_b("1"),
        "after event 1: 0",
        "permitted",
        IDLE,
    ];
    expect(&[A, "0", "--then", b, "1"], 0, &lines);
    // Several times, at first, between two events and at the end, also by the same net.
    let by_a = format!("replaced by {A}");
    let lines = [
        "at first: 0",
        &format!("{by_a}: 1 2"),
        "after event 0: 1 1",
        &format!("{by_a}: 1 1"),
        &by_b("1"),
        "after event 0: 2",
        &format!("{by_a}: 1 0"),
        "permitted",
        "not idle: place 1 has 0, at first 2",
    ];
    let arguments = [
        b, "--then", A, "0", "--then", A, "--then", b, "0", "--then", A,
    ];
    expect(&arguments, 0, &lines);
}

/// A net without places in place of one with a place, and the other way round.
#[test]
fn no_places() {
    let [e, f] = ["samples/e.sealed", "samples/f.sealed"];
    let by = |name: &str, tokens: &str| format!("replaced by {name}: {tokens}");
    let lines = ["at first: no places", &by(e, "0"), "permitted", IDLE];
    expect(&[f, "--then", e], 0, &lines);
    let lines = ["at first: 0", &by(f, "no places"), "permitted", IDLE];
    expect(&[e, "--then", f], 0, &lines);
}

/// A stop is one of the net that is played on, at the position among all events.
#[test]
fn stops_behind_a_replacement() {
    let b = &sealed(&directory("stops_behind_a_replacement"), "b", &ONE_FOLLOWS);
    let lines = [
        "at first: 0",
        "after event 0: 1",
        &format!("replaced by {A}: 1 1"),
        "after event 0: 1 0",
        "stopped 2 1 1: event 0 at position 2, refused by place 1 of samples/a.sealed; \
         1 token missing",
        "not idle: place 1 has 0, at first 2",
    ];
    expect(&[b, "0", "--then", A, "0", "0", "1"], 1, &lines);
    // What stands behind a stop is not played, and its files are not opened.
    let damaged = "samples/damaged.sealed";
    let stop =
        format!("stopped 0 0 1: event 1 at position 0, refused by place 0 of {b}; 1 token missing");
    let lines = ["at first: 0", &stop, IDLE];
    expect(&[b, "1", "--then", damaged, "0"], 1, &lines);
    // An event that is not there is refused as one of the net that is played on.
    let refused = refused(15, 1, A);
    let lines = [
        "at first: 0",
        "after event 0: 1",
        &format!("replaced by {A}: 1 1"),
        refused.trim_end(),
        "not idle: place 1 has 1, at first 2",
    ];
    expect(&[b, "0", "--then", A, "2", "--then", damaged], 1, &lines);
}

/// Where another net is refused the replay ends, with the tokens of the one before.
#[test]
fn refused_nets() {
    let directory = directory("refused_nets");
    let sealed = |name, bundle: &[u8]| sealed(&directory, name, bundle);
    let b = &sealed("b", &ONE_FOLLOWS);
    let cut = &sealed("cut", &SAMPLE_A[..28]);
    let value = &sealed("value", &[2, 0, 65]);
    let tight = &sealed("tight", &[2, 0, 1, 1, 0, 0, 0, 0, 0, 1, 0, 0, 0]);
    let sales = "samples/sales.sealed";
    let both = &format!("{A} then {sales}");
    for (file, number, spot, name) in [
        ("samples/damaged.sealed", 2, 0, "samples/damaged.sealed"),
        ("samples/shuffled.sealed", 17, 1, "samples/shuffled.sealed"),
        ("samples/joined.sealed", 18, 0, "samples/joined.sealed"),
        ("-", 1, 0, "-"),
        (cut, 6, 27, cut),
        (value, 7, 2, value),
        (sales, 22, 0, both),
        (tight, 23, 1, tight),
    ] {
        let refused = refused(number, spot, name);
        let lines = [
            "at first: 1 2",
            "after event 0: 1 1",
            "after event 0: 1 0",
            refused.trim_end(),
            "not idle: place 1 has 0, at first 2",
        ];
        let arguments = [A, "0", "0", "--then", file, "1", "--then", b, "0"];
        expect(&arguments, 1, &lines);
        expect(&arguments[..6], 1, &lines);
        expect(&arguments[..5], 1, &lines);
    }
}

/// The event counts are those of the net before, which may have replaced another.
#[test]
fn told_refusals() {
    let b = &sealed(&directory("told_refusals"), "b", &ONE_FOLLOWS);
    let sales = "samples/sales.sealed";
    let lines = [
        "at first: 0",
        &format!("replaced by {A}: 1 2"),
        &format!(
            "refused 22 0 {A} then {sales}: the event counts of the bundle and of the one that \
             replaces it are not the same; the nets are not of one log: replace a net only by \
             one over the same events"
        ),
        IDLE,
    ];
    expect(&[b, "--then", A, "--then", sales], 1, &lines);
    let lines = [
        "at first: 1 2",
        "after event 1: 0 2",
        &format!(
            "refused 23 0 {b}: the net that replaces another stops at position 0 of the events \
             so far; the sale goes on with the old net: replace it when the sale has ended"
        ),
        "not idle: place 0 has 0, at first 1",
    ];
    expect(&[A, "1", "--then", b, "0"], 1, &lines);
}

/// A file that can't be read is told by its name, wherever it stands, and nothing is played.
#[test]
fn unreadable_files() {
    let missing = Done::new(3, "", "hov: missing: No such file or directory\n");
    for arguments in [
        ["replay", A, "0", "--then", "missing", "1"].as_slice(),
        &["replay", A, "1", "1", "--then", "missing"],
        &[
            "replay", A, "--then", A, "--then", "missing", "--then", "samples",
        ],
        &["replay", "missing", "--then", "samples"],
        &["replay", "samples/damaged.sealed", "--then", "missing"],
    ] {
        assert_eq!(hov(arguments), missing, "{arguments:?}");
    }
    let directory = Done::new(3, "", "hov: samples: Is a directory\n");
    assert_eq!(hov(&["replay", A, "--then", "samples"]), directory);
}

/// Any of the files may be standard input.
#[test]
fn standard_input() {
    let b = &sealed(&directory("then_standard_input"), "b", &ONE_FOLLOWS);
    for (files, printed) in [
        (
            [b.as_str(), "-"],
            "at first: 0\nreplaced by -: 1 2\npermitted\n".to_string(),
        ),
        (
            ["-", b],
            format!("at first: 1 2\nreplaced by {b}: 0\npermitted\n"),
        ),
    ] {
        let arguments = ["replay", files[0], "--then", files[1]];
        let (status, output, errors) = hov_with(&arguments, &build(&SAMPLE_A));
        let printed = format!("{printed}{IDLE}\n");
        assert_eq!((status, output), (0, printed.into_bytes()), "{errors}");
    }
}

/// A file behind `--then` may begin with a dash, since a file is due there, and its name is
/// shown without what could break the line.
#[test]
fn names() {
    let directory = directory("then_names");
    for name in ["-x", "--then", "--", "x\ny"] {
        sealed(&directory, name, &ONE_FOLLOWS);
        let done = hov_in(
            &directory,
            &["replay", "./-x", "0", "--then", name, "1", "1"],
        );
        let shown = name.replace('\n', "?");
        let stop = stopped(&[0, 1, 1], [2, 0, 1], &format!(" of {shown}"));
        let before = "at first: 0\nafter event 0: 1\n";
        let behind = format!("replaced by {shown}: 1\nafter event 1: 0\n");
        let lines = format!("{before}{behind}{stop}{IDLE}\n");
        assert_eq!(done, Done::new(1, &lines, ""), "{name}");
    }
    // Behind `--` there is no option.
    let done = hov_in(&directory, &["replay", "--", "-x", "0", "--then", "-x"]);
    assert_eq!((done.status, done.output.as_str()), (2, ""));
}

/// A standard output that nobody reads.
#[test]
fn output_that_takes_nothing() {
    let damaged = "samples/damaged.sealed";
    for events in [
        ["--then", A, "0", "1"],
        ["0", "--then", A, "2"],
        ["0", "0", "--then", damaged],
    ] {
        let arguments = [["replay", A].as_slice(), &events].concat();
        assert_eq!(hov_unread(&arguments), Done::new(3, "", ""));
    }
}
