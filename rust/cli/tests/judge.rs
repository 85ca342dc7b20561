//! `hov judge`.

mod support;

use differential::bundle_faults::{altered, BundleFault};
use differential::faults::{BlockFault, LengthFault};
use differential::files::build;
use differential::judging::reference_verdict;
use differential::limits::LARGEST;
use differential::nets::small_certified;
use differential::rng::Rng;
use differential::run::Run;
use reference::Tally;
use std::ffi::{OsStr, OsString};
use std::fs::{self, File};
use std::io::{BufRead, BufReader, Read};
use std::os::unix::ffi::{OsStrExt, OsStringExt};
use std::process::Stdio;
use support::{
    command, directory, hov, hov_in, hov_unread, hov_with, refused, sample, start, Done,
};

const SAMPLES: [&str; 7] = [
    "samples/a.sealed",
    "samples/damaged.sealed",
    "samples/e.sealed",
    "samples/f.sealed",
    "samples/joined.sealed",
    "samples/several.sealed",
    "samples/shuffled.sealed",
];

#[test]
fn sample_files() {
    let lines = "\
accepted 5 4 5 1 samples/a.sealed
refused 2 0 samples/damaged.sealed: the sums of block 0 are wrong; bytes were damaged on the way: have it sent again
accepted 1 0 1 0 samples/e.sealed
refused 6 3 samples/f.sealed: the bundle ends before or inside the field at offset 3; the modeller's file lacks what the counts before announce
refused 18 0 samples/joined.sealed: the used count of block 0 is wrong, or an unused byte of it is not zero; it was cut short, or written by something else: have it sent again
accepted 43 42 177 39 samples/several.sealed
refused 17 1 samples/shuffled.sealed: the block at position 1 has another number; the blocks came in the wrong order, or one is missing: have it sent again in order
";
    let arguments = [["judge"].as_slice(), &SAMPLES].concat();
    assert_eq!(hov(&arguments), Done::new(1, lines, ""));
    let accepted = hov(&["judge", "samples/e.sealed", "samples/a.sealed"]);
    let lines = "accepted 1 0 1 0 samples/e.sealed\naccepted 5 4 5 1 samples/a.sealed\n";
    assert_eq!(accepted, Done::new(0, lines, ""));
}

/// A file that may be accepted, or refused for any reason.
fn any_file(run: &mut Run, case: usize) -> Vec<u8> {
    let rng = &mut run.rng;
    let certified = small_certified(rng);
    match case % 8 {
        0 | 1 => build(&certified.bundle.bytes()),
        2 => build(&altered(rng, &certified.bundle)),
        3 => rng.choose(&LengthFault::ALL).file(rng),
        4 => {
            BlockFault::ALL[case / 8 % BlockFault::ALL.len()]
                .file(rng)
                .0
        }
        _ => {
            let fault = rng.choose(&BundleFault::ALL);
            let faulty = fault.bytes(rng, &certified);
            build(&faulty.map_or_else(|| certified.bundle.bytes(), |(bytes, _)| bytes))
        }
    }
}

/// The line for a file of this name, by the reference.
fn line(run: &mut Run, file: &[u8], name: &str) -> String {
    match reference_verdict(file) {
        Ok(Tally {
            rows,
            allowed,
            by_place,
            by_weights,
        }) => {
            run.count(0);
            format!("accepted {rows} {allowed} {by_place} {by_weights} {name}\n")
        }
        Err(refusal) => {
            run.count(refusal.number);
            refused(refusal.number, refusal.spot, name)
        }
    }
}

/// Many files, valid and faulty, in the order of the arguments.
#[test]
fn many_files() {
    let mut run = Run::start("many_files");
    let directory = directory("many_files");
    for round in 0..run.cases(5) {
        let mut arguments = vec!["judge".to_string()];
        let mut lines = String::new();
        for case in 0..200 {
            let file = any_file(&mut run, case);
            let name = format!("{round}.{case}");
            fs::write(directory.join(&name), &file).expect("the file is written");
            lines += &line(&mut run, &file, &name);
            arguments.push(name);
        }
        assert_eq!(
            hov_in(&directory, &arguments),
            Done::new(1, &lines, ""),
            "{run}"
        );
    }
    let blocks = [(17, 25), (18, 20), (2, 20)];
    let others = [(0, 250), (1, 100), (6, 10), (7, 50), (12, 5)];
    run.finish(&[blocks.as_slice(), &others].concat());
}

/// Trouble with some files: the others are still judged, and 3 wins over 1.
#[test]
fn missing_files() {
    let mut arguments = vec!["judge".to_string()];
    let (mut lines, mut errors) = (String::new(), String::new());
    for number in 0..60 {
        match number % 4 {
            0 => {
                arguments.push(SAMPLES[0].into());
                lines += "accepted 5 4 5 1 samples/a.sealed\n";
            }
            1 => {
                arguments.push(format!("missing.{number}"));
                errors += &format!("hov: missing.{number}: No such file or directory\n");
            }
            2 => {
                arguments.push("samples".into());
                errors += "hov: samples: Is a directory\n";
            }
            _ => {
                arguments.push(SAMPLES[1].into());
                lines += &refused(2, 0, SAMPLES[1]);
            }
        }
    }
    assert_eq!(hov(&arguments), Done::new(3, &lines, &errors));
    let done = hov(&["judge", "missing", SAMPLES[0]]);
    let error = "hov: missing: No such file or directory\n";
    assert_eq!(
        done,
        Done::new(3, "accepted 5 4 5 1 samples/a.sealed\n", error)
    );
    let done = hov(&["judge", "samples/a.sealed/x", ""]);
    let errors = "hov: samples/a.sealed/x: Not a directory\nhov: : No such file or directory\n";
    assert_eq!(done, Done::new(3, "", errors));
}

#[test]
fn standard_input() {
    let a = fs::read(sample("a.sealed")).expect("the sample is read");
    let lines = "accepted 1 0 1 0 samples/e.sealed\naccepted 5 4 5 1 -\n";
    let (status, output, errors) = hov_with(&["judge", "samples/e.sealed", "-"], &a);
    assert_eq!((status, errors.as_str()), (0, ""));
    assert_eq!(String::from_utf8_lossy(&output), lines);
    // An empty one is a file of no byte.
    assert_eq!(hov(&["judge", "-"]), Done::new(1, &refused(1, 0, "-"), ""));
    // One that can't be read is trouble, and no empty one.
    let unreadable = [
        (File::open(env!("CARGO_MANIFEST_DIR")), "Is a directory"),
        (
            File::options().write(true).open("/dev/null"),
            "Bad file descriptor",
        ),
    ];
    for (input, reason) in unreadable {
        let mut command = command(&["judge", "-"]);
        command.stdin(input.expect("it opens"));
        let done = Done::of(command.output().expect("hov runs"));
        let error = format!("hov: standard input: {reason}\n");
        assert_eq!(done, Done::new(3, "", &error));
    }
}

/// A line is there as soon as it and all before it are, while a later file is still
/// being waited for.
#[test]
fn lines_come_early() {
    let mut running = start(&["judge", SAMPLES[0], SAMPLES[1], "-", SAMPLES[2]]);
    let pipe = running.stdin.take().expect("a pipe");
    let mut output = BufReader::new(running.stdout.take().expect("a pipe"));
    let mut lines = String::new();
    for _ in 0..2 {
        output.read_line(&mut lines).expect("lines are text");
    }
    let first = "accepted 5 4 5 1 samples/a.sealed\n".to_string();
    assert_eq!(lines, first.clone() + &refused(2, 0, SAMPLES[1]));
    drop(pipe);
    output.read_to_string(&mut lines).expect("lines are text");
    let last = "accepted 1 0 1 0 samples/e.sealed\n";
    assert_eq!(
        lines,
        first + &refused(2, 0, SAMPLES[1]) + &refused(1, 0, "-") + last
    );
    assert_eq!(running.wait().expect("hov ends").code(), Some(1));
}

/// Long files and an endless one.
#[test]
fn long_files() {
    let directory = directory("long_files");
    let longest = build(&LARGEST.certified(&mut Rng::new(1)).bundle.bytes());
    assert_eq!(longest.len(), 65_536);
    fs::write(directory.join("longest"), &longest).expect("the file is written");
    for (name, more) in [("longer", 1), ("block", 512), ("million", 1_000_000)] {
        let long = [longest.as_slice(), &vec![0; more]].concat();
        fs::write(directory.join(name), long).expect("the file is written");
    }
    let names = [
        "longest",
        "longer",
        "block",
        "million",
        "/dev/zero",
        "/dev/null",
    ];
    let arguments = [["judge"].as_slice(), &names].concat();
    let mut lines = "accepted 256 255 2565 252 longest\n".to_string();
    for name in &names[1..] {
        lines += &refused(1, 0, name);
    }
    assert_eq!(hov_in(&directory, &arguments), Done::new(1, &lines, ""));
}

/// No name breaks a line or passes for a verdict.
#[test]
fn harmful_names() {
    let directory = directory("harmful_names");
    let a = fs::read(sample("a.sealed")).expect("the sample is read");
    let names: [(&[u8], &str); 6] = [
        (b"x\naccepted 5 4 5 1 y", "x?accepted 5 4 5 1 y"),
        (b"\x1b[2K\r\x07", "?[2K??"),
        (b"\xff\xfe\xe2\x82", "????"),
        (b"\xc2\x9b2J\x7f", "?2J?"),
        ("\u{202e}abc\u{2066}\u{2028}".as_bytes(), "?abc??"),
        ("ä b".as_bytes(), "ä b"),
    ];
    let mut arguments = vec![OsString::from("judge")];
    let (mut lines, mut errors) = (String::new(), String::new());
    for (name, shown) in names {
        fs::write(directory.join(OsStr::from_bytes(name)), &a).expect("the file is written");
        arguments.push(OsString::from_vec(name.to_vec()));
        arguments.push(OsString::from_vec([name, b"!"].concat()));
        lines += &format!("accepted 5 4 5 1 {shown}\n");
        errors += &format!("hov: {shown}!: No such file or directory\n");
    }
    assert_eq!(
        hov_in(&directory, &arguments),
        Done::new(3, &lines, &errors)
    );
}

/// A standard output that takes nothing.
#[test]
fn full_output() {
    let full = || File::create("/dev/full").expect("a device that is full");
    let unwritable = || File::open("/dev/null").expect("a device to be read");
    for (file, status) in [(SAMPLES[0], 3), (SAMPLES[1], 3), ("missing", 3)] {
        for (output, reason) in [
            (full(), "No space left on device"),
            (unwritable(), "Bad file descriptor"),
        ] {
            let mut command = command(&["judge", file]);
            let done = Done::of(command.stdout(output).output().expect("hov runs"));
            let error = match file {
                "missing" => "hov: missing: No such file or directory\n".into(),
                _ => format!("hov: standard output: {reason}\n"),
            };
            assert_eq!(done, Done::new(status, "", &error), "{file}");
        }
    }
}

/// A closed pipe: no message and no panic, with one line and with many.
#[test]
fn closed_pipe() {
    for count in [0, 1, 2_000] {
        let arguments = [vec!["judge", "-"], vec![SAMPLES[1]; count]].concat();
        assert_eq!(hov_unread(&arguments), Done::new(3, "", ""), "{count}");
    }
}

/// A reader that leaves after some lines.
#[test]
fn pipe_closed_on_the_way() {
    let arguments = [vec!["judge"], vec![SAMPLES[1]; 3_000]].concat();
    let mut running = start(&arguments);
    let mut output = BufReader::new(running.stdout.take().expect("a pipe"));
    let mut line = String::new();
    output.read_line(&mut line).expect("a line");
    assert_eq!(line, refused(2, 0, SAMPLES[1]));
    drop(output);
    let done = Done::of(running.wait_with_output().expect("hov ends"));
    assert_eq!(done, Done::new(3, "", ""));
}

/// Nobody reads what is wrong: the rest is as ever.
#[test]
fn closed_standard_error() {
    let mut running = start(&["judge", "-", "missing", SAMPLES[0]]);
    drop(running.stderr.take());
    drop(running.stdin.take());
    let done = Done::of(running.wait_with_output().expect("hov ends"));
    let lines = refused(1, 0, "-") + "accepted 5 4 5 1 samples/a.sealed\n";
    assert_eq!(done, Done::new(3, &lines, ""));

    let mut usage = command(&["judge"]);
    let full = File::create("/dev/full").expect("a device that is full");
    let status = usage.stdout(Stdio::null()).stderr(full).status();
    assert_eq!(status.expect("hov runs").code(), Some(2));
}
