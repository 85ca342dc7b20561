//! The script that asks the proved program, `examples/may_run.sh`.

use differential::c_programs::root;
use differential::program::path;
use differential::samples::{all, directory};
use std::fs::{self, Permissions};
use std::os::unix::fs::PermissionsExt;
use std::path::{Path, PathBuf};
use std::process::Command;

/// Whether the script says that the net of a file may run. It prints nothing.
fn may_run(judge: &Path, file: &Path) -> bool {
    let done = Command::new("sh")
        .arg(root().join("examples/may_run.sh"))
        .args([judge, file])
        .output()
        .expect("there is a shell");
    assert_eq!(done.stdout, b"", "{}", file.display());
    done.status.success()
}

/// Its answer is that of the program.
#[test]
fn sample_files() {
    let mut accepted = 0;
    for sample in all() {
        let answer = may_run(&path(), &directory().join(sample.name));
        assert_eq!(
            answer,
            sample.line.starts_with("accepted "),
            "{}",
            sample.name
        );
        accepted += usize::from(answer);
    }
    assert_eq!(accepted, 5);
}

/// A file that is not there or can't be read is not accepted, nor is a name with a
/// space taken for two.
#[test]
fn other_files() {
    let judge = path();
    assert!(!may_run(&judge, &directory().join("missing.sealed")));
    assert!(!may_run(&judge, &directory()));
    assert!(!may_run(
        Path::new("/no/such/judge"),
        &directory().join("a.sealed")
    ));
    let spaced = Path::new(env!("CARGO_TARGET_TMPDIR")).join("$(exit) a; b.sealed");
    fs::copy(directory().join("a.sealed"), &spaced).expect("a copy");
    assert!(may_run(&judge, &spaced));
}

/// A program that is made of this line.
fn program(name: &str, line: &str) -> PathBuf {
    let program = Path::new(env!("CARGO_TARGET_TMPDIR")).join(name);
    fs::write(&program, format!("#!/bin/sh\n{line}\n")).expect("a program");
    fs::set_permissions(&program, Permissions::from_mode(0o755)).expect("its mode");
    program
}

/// Each of the three is asked for: status, standard error, first word.
#[test]
fn all_three() {
    let file = directory().join("a.sealed");
    for (name, line, may) in [
        ("all_three", "echo accepted 1 1 1 1", true),
        ("killed", "echo accepted 1 1 1 1; kill -9 $$", false),
        ("status", "echo accepted 1 1 1 1; exit 1", false),
        ("error", "echo accepted 1 1 1 1; echo x >&2", false),
        ("first_word", "echo refused 1 0", false),
        ("longer_word", "echo acceptedx 1 1 1 1", false),
        ("nothing", "true", false),
    ] {
        assert_eq!(may_run(&program(name, line), &file), may, "{line}");
    }
}
