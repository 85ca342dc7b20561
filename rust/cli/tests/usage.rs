//! Help, version, and how arguments are read and shown.

mod support;

use std::ffi::OsStr;
use std::fs;
use std::os::unix::ffi::OsStrExt;
use support::{directory, hov, hov_in, Done};

const COMMANDS: [&str; 9] = [
    "judge", "screen", "reach", "replay", "seal", "unseal", "prune", "convert", "show",
];

#[test]
fn help() {
    let help = hov(&["--help"]);
    assert_eq!((help.status, help.errors.as_str()), (0, ""));
    for command in COMMANDS {
        assert!(
            help.output.contains(&format!("\n  hov {command} ")),
            "{command}"
        );
    }
    for words in [
        "Status: 0 ",
        "too: judge first",
        "--certificate N",
        "--with FILE2",
        "--then FILE2",
        "--to new|old",
        "'--' ends",
    ] {
        assert!(help.output.contains(words), "{words}");
    }
    assert!(help.output.lines().all(|line| line.len() <= 84));
    for arguments in [["-h"], ["help"]] {
        assert_eq!(hov(&arguments), help, "{arguments:?}");
    }
    for command in COMMANDS {
        for arguments in [
            vec![command, "--help"],
            vec![command, "-h"],
            vec![command, "a", "b", "--help", "c"],
        ] {
            assert_eq!(hov(&arguments), help, "{arguments:?}");
        }
    }
}

#[test]
fn version() {
    let line = concat!("hov ", env!("CARGO_PKG_VERSION"), "\n");
    assert_eq!(hov(&["--version"]), Done::new(0, line, ""));
}

/// An argument is echoed without what could break the line.
#[test]
fn echoed_arguments() {
    for argument in [b"x\ny\x1b[2J".as_slice(), b"x\xffy\xc2\x9b[2J"] {
        let done = hov(&[OsStr::from_bytes(argument)]);
        assert!(
            done.errors.starts_with("hov: no such command: 'x?y?[2J';"),
            "{done:?}"
        );
    }
    let done = hov(&["screen", "-", "0\u{202e}1\r"]);
    assert!(
        done.errors
            .starts_with("hov: no event of 1 to 20 digits: '0?1?';"),
        "{done:?}"
    );
    let done = hov(&["judge", "--a\nb"]);
    assert!(
        done.errors
            .starts_with("hov: no such option here: '--a?b';"),
        "{done:?}"
    );
}

/// `--` ends the options, and `./` is another way to name such a file.
#[test]
fn a_file_named_like_an_option() {
    let directory = directory("like_an_option");
    let a = fs::read(support::sample("a.sealed")).expect("the sample is read");
    for name in ["-x", "--help", "--", "-"] {
        fs::write(directory.join(name), &a).expect("the file is written");
    }
    for (arguments, names) in [
        (vec!["judge", "--", "-x"], vec!["-x"]),
        (vec!["judge", "--", "--help", "--"], vec!["--help", "--"]),
        (
            vec!["judge", "./-x", "./-", "--", "./--"],
            vec!["./-x", "./-", "./--"],
        ),
    ] {
        let lines: String = names
            .iter()
            .map(|name| format!("accepted 5 4 5 1 {name}\n"))
            .collect();
        assert_eq!(
            hov_in(&directory, &arguments),
            Done::new(0, &lines, ""),
            "{arguments:?}"
        );
    }
    let done = hov_in(&directory, &["screen", "--", "-x", "0"]);
    assert_eq!(done, Done::new(0, "permitted\n", ""));
    let done = hov_in(&directory, &["unseal", "--", "-x", "-y"]);
    assert_eq!(done, Done::new(0, "", ""));
    let done = hov_in(&directory, &["show", "--certificate", "0", "--", "-x"]);
    assert_eq!(done.status, 0);
}
