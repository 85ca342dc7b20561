//! Arguments that ask for nothing.

mod support;

use std::fs::{self, File};
use std::io::{Read, Seek};
use support::{command, directory, start, Done};

/// Arguments that are wrong, and the usage that is shown for them.
type Wrong = Vec<(Vec<&'static str>, &'static str)>;

fn wrong() -> Wrong {
    [
        wrong_commands(),
        wrong_files(),
        wrong_reaches(),
        wrong_replays(),
        wrong_editions(),
        wrong_certificates(),
    ]
    .concat()
}

fn wrong_commands() -> Wrong {
    let any = "hov judge|screen|reach|replay|seal|unseal|prune|convert|show ARGUMENT...";
    vec![
        (vec![], any),
        (vec![""], any),
        (vec!["jugde"], any),
        (vec!["Judge", "-"], any),
        (vec!["-"], any),
        (vec!["--"], any),
        (vec!["--", "judge", "-"], any),
        (vec!["-x"], any),
        (vec!["--help", "judge"], any),
        (vec!["-h", "-h"], any),
        (vec!["help", "judge"], any),
        (vec!["--version", "-"], any),
    ]
}

fn wrong_files() -> Wrong {
    let judge = "hov judge FILE...";
    let screen = "hov screen FILE [--with FILE2] EVENT...";
    let mut all = vec![
        (vec!["judge"], judge),
        (vec!["judge", "--"], judge),
        (vec!["judge", "-", "-"], judge),
        (vec!["judge", "-", "a", "--", "-"], judge),
        (vec!["judge", "-", "-x"], judge),
        (vec!["judge", "-", "--certificate", "1"], judge),
        (vec!["screen"], screen),
        (vec!["screen", "-x", "0"], screen),
        (vec!["screen", "-", "-1"], screen),
        (vec!["screen", "-", "--", "-1"], screen),
        (vec!["screen", "--with"], screen),
        (vec!["screen", "--with", "-"], screen),
        (vec!["screen", "-", "--with"], screen),
        (vec!["screen", "-", "0", "--with"], screen),
        (vec!["screen", "-", "--with", "-", "0"], screen),
        (vec!["screen", "--with", "-", "--", "-", "0"], screen),
        (vec!["screen", "-", "--with", "a", "--with", "b"], screen),
        (vec!["screen", "-", "--with=a", "0"], screen),
        (vec!["screen", "-", "--with", "a", "x"], screen),
        (vec!["screen", "-", "--", "0", "--with", "a"], screen),
        (vec!["judge", "-", "--with", "a"], judge),
        (vec!["screen", "-", "--then", "a"], screen),
    ];
    for (writes, usage) in [
        ("seal", "hov seal IN OUT"),
        ("unseal", "hov unseal IN OUT"),
        ("prune", "hov prune IN OUT"),
    ] {
        all.push((vec![writes], usage));
        all.push((vec![writes, "-"], usage));
        all.push((vec![writes, "-", "-", "-"], usage));
        all.push((vec![writes, "-", "--", "-", "-"], usage));
        all.push((vec![writes, "-", "-", "-x"], usage));
        all.push((vec![writes, "-", "-", "--to", "new"], usage));
    }
    all
}

fn wrong_reaches() -> Wrong {
    let wrong = [
        vec![],
        vec!["-"],
        vec!["-", "0", "1"],
        vec!["-x", "0"],
        vec!["-", "-1"],
        vec!["-", "--", "-1"],
        vec!["-", "x"],
        vec!["-", ""],
        vec!["-", "0", "--with", "a"],
        vec!["-", "0", "--then", "a"],
        vec!["-", "--", "0", "--help"],
    ];
    let whole = |arguments: Vec<_>| ([vec!["reach"], arguments].concat(), "hov reach FILE EVENT");
    wrong.map(whole).to_vec()
}

fn wrong_replays() -> Wrong {
    let wrong = [
        vec![],
        vec!["-x", "0"],
        vec!["-", "-1"],
        vec!["-", "--", "-1"],
        vec!["-", "x"],
        vec!["-", "--with", "a"],
        vec!["--then"],
        vec!["--then", "-"],
        vec!["--then", "a", "0", "-", "0"],
        vec!["-", "--then"],
        vec!["-", "0", "--then"],
        vec!["-", "--then", "a", "0", "--then"],
        vec!["-", "--then", "-", "0"],
        vec!["a", "--then", "-", "--then", "-"],
        vec!["-", "--then=a", "0"],
        vec!["-", "--then", "a", "x"],
        vec!["-", "x", "--then", "a"],
        vec!["-", "--", "0", "--then", "a"],
    ];
    let usage = "hov replay FILE EVENT... [--then FILE2 EVENT...]...";
    let whole = |arguments: Vec<_>| ([vec!["replay"], arguments].concat(), usage);
    wrong.map(whole).to_vec()
}

fn wrong_editions() -> Wrong {
    let wrong = [
        vec![],
        vec!["-", "-"],
        vec!["--", "--to", "new", "-", "-"],
        vec!["--to"],
        vec!["-", "-", "--to"],
        vec!["--to", "", "-", "-"],
        vec!["--to", "New", "-", "-"],
        vec!["--to", "newer", "-", "-"],
        vec!["--to", "128", "-", "-"],
        vec!["--to", "-", "-", "new"],
        vec!["--to=new", "-", "-"],
        vec!["--to", "new", "--to", "new", "-", "-"],
        vec!["--to", "new"],
        vec!["--to", "old", "-"],
        vec!["--to", "old", "-", "-", "-"],
        vec!["--to", "old", "-", "-", "-x"],
        vec!["--to", "old", "--with", "-", "-"],
        vec!["new", "-", "-"],
    ];
    let usage = "hov convert --to new|old IN OUT";
    let whole = |arguments: Vec<_>| ([vec!["convert"], arguments].concat(), usage);
    wrong.map(whole).to_vec()
}

fn wrong_certificates() -> Wrong {
    let show = "hov show FILE [--certificate N]";
    vec![
        (vec!["show"], show),
        (vec!["show", "-", "-"], show),
        (vec!["show", "-", "--certificate"], show),
        (vec!["show", "--certificate", "-"], show),
        (vec!["show", "--certificate", "1"], show),
        (vec!["show", "-", "--certificate", ""], show),
        (vec!["show", "-", "--certificate", "+1"], show),
        (vec!["show", "-", "--certificate", "-1"], show),
        (vec!["show", "-", "--certificate", "1x"], show),
        (
            vec!["show", "-", "--certificate", "99999999999999999999"],
            show,
        ),
        (
            vec!["show", "-", "--certificate", "1", "--certificate", "1"],
            show,
        ),
        (vec!["show", "-", "--", "--certificate", "1"], show),
    ]
}

/// One line, nothing on standard output, and not a byte of the input is read, even
/// where `-` is among the arguments.
#[test]
fn wrong_arguments() {
    let path = directory("wrong_arguments").join("input");
    fs::write(&path, [1; 100]).expect("the input is written");
    for (arguments, usage) in wrong() {
        let mut input = File::open(&path).expect("the input opens");
        let same_input = input.try_clone().expect("a second handle");
        let mut command = command(&arguments);
        let done = Done::of(command.stdin(same_input).output().expect("hov runs"));
        assert_eq!(
            (done.status, done.output.as_str()),
            (2, ""),
            "{arguments:?}"
        );
        assert_eq!(done.errors.lines().count(), 1, "{arguments:?}: {done:?}");
        assert!(done.errors.starts_with("hov: "), "{arguments:?}: {done:?}");
        let shown = format!("; usage: {usage} (hov --help says more)\n");
        assert!(done.errors.ends_with(&shown), "{arguments:?}: {done:?}");
        assert_eq!(
            input.stream_position().expect("a position"),
            0,
            "{arguments:?}"
        );
    }
}

/// A standard input that is left open is not waited for.
#[test]
fn wrong_arguments_with_an_open_pipe() {
    for (arguments, _) in wrong() {
        let mut running = start(&arguments);
        let pipe = running.stdin.take().expect("a pipe");
        let mut errors = String::new();
        let mut stderr = running.stderr.take().expect("a pipe");
        stderr
            .read_to_string(&mut errors)
            .expect("messages are text");
        assert_eq!(
            running.wait().expect("hov ends").code(),
            Some(2),
            "{arguments:?}"
        );
        assert!(errors.contains("usage"), "{arguments:?}");
        drop(pipe);
    }
}
