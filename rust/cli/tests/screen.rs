//! `hov screen`.

mod support;

use differential::bundles::SAMPLE_H;
use differential::files::build;
use differential::run::Run;
use differential::screening::{any_net, Kind, MAX_WORD_EVENTS};
use reference::Screened;
use std::fs::{self, File};
use support::{command, directory, hov, hov_unread, hov_with, refused, stopped, Done};

const A: &str = "samples/a.sealed";

/// The result of `hov screen` with these events.
fn screen(file: &str, events: &[&str]) -> Done {
    hov(&[["screen", file].as_slice(), events].concat())
}

#[test]
fn sample_words() {
    let stopped = |line: &str| Done::new(1, &format!("stopped {line}\n"), "");
    let permitted = Done::new(0, "permitted\n", "");
    assert_eq!(screen(A, &["0", "1"]), permitted);
    assert_eq!(screen(A, &[]), permitted);
    for (file, events, line) in [
        (
            A,
            ["1", "0"].as_slice(),
            "1 0 1: event 0 at position 1, refused by place 0; 1 token missing",
        ),
        (
            A,
            &["0", "0", "0"],
            "2 1 1: event 0 at position 2, refused by place 1; 1 token missing",
        ),
        (
            A,
            &["0", "0", "1", "1"],
            "3 0 1: event 1 at position 3, refused by place 0; 1 token missing",
        ),
        (
            "samples/e.sealed",
            &["0"],
            "0 0 1: event 0 at position 0, refused by place 0; 1 token missing",
        ),
        (
            "samples/several.sealed",
            &["1", "3"],
            "1 8 46: event 3 at position 1, refused by place 8; 46 tokens missing",
        ),
    ] {
        assert_eq!(screen(file, events), stopped(line), "{file} {events:?}");
    }
    // The judge refuses this one.
    assert_eq!(screen("samples/f.sealed", &["0", "0"]), permitted);
    let damaged = "samples/damaged.sealed";
    let line = "refused 2 0 samples/damaged.sealed: the sums of block 0 are wrong; bytes were damaged on the way: have it sent again\n";
    assert_eq!(screen(damaged, &["0"]), Done::new(1, line, ""));
    let shuffled = "samples/shuffled.sealed";
    let line = refused(17, 1, shuffled);
    assert_eq!(screen(shuffled, &["0"]), Done::new(1, &line, ""));
    let joined = "samples/joined.sealed";
    let line = refused(18, 0, joined);
    assert_eq!(screen(joined, &["0"]), Done::new(1, &line, ""));
}

/// Every number of 1 to 20 digits is taken, and none that is n or more is an event.
#[test]
fn numbers() {
    let refused = Done::new(1, &refused(15, 1, A), "");
    for number in [
        "2",
        "12",
        "13",
        "254",
        "255",
        "256",
        "257",
        "511",
        "512",
        "65536",
        "4294967296",
        "18446744073709551615",
        "18446744073709551616",
        "99999999999999999999",
    ] {
        assert_eq!(screen(A, &["0", number]), refused, "{number}");
    }
    let done = screen(A, &["00000000000000000000", "00000000000000000001"]);
    assert_eq!(done, Done::new(0, "permitted\n", ""));
}

#[test]
fn wrong_events() {
    for wrong in [
        "",
        "x",
        "+1",
        "1.",
        "1,0",
        "0 1",
        " 1",
        "1 ",
        "1\n",
        "0x1",
        "/",
        ":",
        "\u{661}",
        "000000000000000000001",
        "100000000000000000000",
        "-",
    ] {
        for events in [vec![wrong], vec!["0", wrong, "1"]] {
            // The arguments are looked at before the file.
            for file in [A, "missing", "samples/damaged.sealed"] {
                let done = screen(file, &events);
                assert_eq!((done.status, done.output.as_str()), (2, ""), "{wrong:?}");
                let starts = done
                    .errors
                    .starts_with("hov: no event of 1 to 20 digits: '");
                assert!(starts, "{wrong:?}: {done:?}");
                assert_eq!(done.errors.lines().count(), 1, "{wrong:?}: {done:?}");
            }
        }
    }
}

#[test]
fn wrong_files() {
    let done = screen("missing", &["0"]);
    assert_eq!(
        done,
        Done::new(3, "", "hov: missing: No such file or directory\n")
    );
    let done = screen("samples", &[]);
    assert_eq!(done, Done::new(3, "", "hov: samples: Is a directory\n"));
    assert_eq!(
        screen("/dev/zero", &[]),
        Done::new(1, &refused(1, 0, "/dev/zero"), "")
    );
}

#[test]
fn standard_input() {
    let h = build(&SAMPLE_H);
    let (status, output, errors) = hov_with(&["screen", "-", "0"], &h);
    assert_eq!(
        (status, output.as_slice(), errors.as_str()),
        (0, b"permitted\n".as_slice(), "")
    );
    let done = screen("-", &["0"]);
    assert_eq!(done, Done::new(1, &refused(1, 0, "-"), ""));
}

/// The longest word and a longer one.
#[test]
fn longest_words() {
    let f = "samples/f.sealed";
    let longest = vec!["0"; MAX_WORD_EVENTS];
    assert_eq!(screen(f, &longest), Done::new(0, "permitted\n", ""));
    let longer = vec!["9"; MAX_WORD_EVENTS + 1];
    assert_eq!(
        screen(f, &longer),
        Done::new(1, &refused(14, 65_535, f), "")
    );
}

/// What `hov screen` does, by the reference.
fn owed(run: &mut Run, bundle: &[u8], word: &[u8], name: &str) -> Done {
    match reference::screen(bundle, word) {
        Ok(Screened::Permitted) => {
            run.note("permitted");
            Done::new(0, "permitted\n", "")
        }
        Ok(Screened::Stopped {
            position,
            place,
            shortfall,
        }) => {
            run.note(match shortfall {
                1 => "1 token missing",
                _ => "several tokens missing",
            });
            let line = stopped(word, [position, place, shortfall], "");
            Done::new(1, &line, "")
        }
        Err(refusal) => {
            run.count(refusal.number);
            Done::new(1, &refused(refusal.number, refusal.spot, name), "")
        }
    }
}

/// Words of every kind on any nets, against the reference.
#[test]
fn generated_words() {
    let mut run = Run::start("hov_screen_generated_words");
    let path = directory("generated_words").join("file");
    let name = path.to_str().expect("a name in text");
    for _ in 0..run.cases(60) {
        let (bundle, word) = any_net(&mut run.rng);
        let bytes = bundle.bytes();
        fs::write(&path, build(&bytes)).expect("the file is written");
        let mut words = Kind::ALL
            .map(|kind| kind.word(&mut run.rng, &bundle))
            .to_vec();
        let mut wrong = word.clone();
        let at = run.rng.below(word.len());
        wrong[at] = run.rng.within(bundle.n..=255) as u8;
        words.extend([word, wrong]);
        for word in words {
            let owed = owed(&mut run, &bytes, &word, name);
            let events: Vec<String> = word.iter().map(u8::to_string).collect();
            let events: Vec<&str> = events.iter().map(String::as_str).collect();
            assert_eq!(screen(name, &events), owed, "{word:?}, {run}");
        }
    }
    run.finish_with_classes(
        &[(15, 60)],
        &[
            ("permitted", 60),
            ("1 token missing", 5),
            ("several tokens missing", 20),
        ],
    );
}

#[test]
fn output_that_takes_nothing() {
    for events in [vec!["0", "1"], vec!["1", "0"], vec!["2"]] {
        let arguments = [vec!["screen", A], events].concat();
        let full = File::create("/dev/full").expect("a device that is full");
        let mut command = command(&arguments);
        let done = Done::of(command.stdout(full).output().expect("hov runs"));
        let error = "hov: standard output: No space left on device\n";
        assert_eq!(done, Done::new(3, "", error));
    }
    assert_eq!(hov_unread(&["screen", A, "0"]), Done::new(3, "", ""));
}
