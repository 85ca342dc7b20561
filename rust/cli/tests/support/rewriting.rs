//! The commands that write a sealed file anew: `hov prune` and `hov convert`.

use crate::support::{directory, hov_in, hov_unread, names_in, refused, Done};
use differential::bundles::one_for_each_answer;
use differential::files::build;
use std::fs;
use std::os::unix::fs::MetadataExt;
use std::path::Path;

pub fn read(path: impl AsRef<Path>) -> Vec<u8> {
    fs::read(path).expect("the file is read")
}

pub fn write(path: impl AsRef<Path>, bytes: &[u8]) {
    fs::write(path, bytes).expect("the file is written");
}

/// A file that is refused, with its number and spot.
pub type Refused = (Vec<u8>, u8, usize);

/// One for each refusal of opening and of judging.
fn refused_files() -> Vec<Refused> {
    let file = build(&[5; 600]);
    let altered = |byte: usize| {
        let mut altered = file.clone();
        altered[byte] ^= 1;
        altered
    };
    let mut files = vec![
        (vec![], 1, 0),
        (altered(4), 2, 0),
        (altered(512), 17, 1),
        (altered(1_000), 18, 1),
    ];
    for (bundle, outcome) in one_for_each_answer() {
        // No sealed file has a bundle of no byte.
        if let (Err(refused), false) = (outcome, bundle.is_empty()) {
            files.push((build(&bundle), refused.number, refused.spot));
        }
    }
    assert_eq!(files.len(), 4 + 9);
    files
}

/// Every refusal, of the file and of its bundle, and these: its line on standard error, and
/// nothing written, be the output there before or not.
pub fn refusals(name: &str, command: &[&str], others: Vec<Refused>) {
    let directory = directory(name);
    write(directory.join("there"), b"as it was");
    let inode = || {
        let found = fs::metadata(directory.join("there"));
        found.expect("it is there").ino()
    };
    let before = inode();
    for (bytes, number, spot) in refused_files().into_iter().chain(others) {
        write(directory.join("in"), &bytes);
        for output in ["there", "new", "-"] {
            let done = hov_in(&directory, &[command, &["in", output]].concat());
            let line = refused(number, spot, "in");
            assert_eq!(done, Done::new(1, "", &line), "{number} {output}");
        }
        assert_eq!(names_in(&directory), ["in", "there"], "{number}");
    }
    assert_eq!(read(directory.join("there")), b"as it was");
    assert_eq!(inode(), before);
}

/// Trouble with the input or the output of a command that this file is accepted by: it is
/// told, and nothing else.
pub fn trouble(name: &str, command: &[&str], file: &[u8]) {
    let directory = directory(name);
    write(directory.join("in"), file);
    for (input, output, name, reason) in [
        ("missing", "out", "missing", "No such file or directory"),
        (".", "-", ".", "Is a directory"),
        (
            "in",
            "missing/out",
            "missing/out",
            "No such file or directory",
        ),
        ("in", ".", ".", "Is a directory"),
        ("in", "in/", "in/", "Not a directory"),
    ] {
        let done = hov_in(&directory, &[command, &[input, output]].concat());
        let error = format!("hov: {name}: {reason}\n");
        assert_eq!(done, Done::new(3, "", &error), "{input} {output}");
        assert_eq!(names_in(&directory), ["in"], "{input} {output}");
    }
    assert!(read(directory.join("in")) == file);
    let arguments = [command, &["samples/a.sealed", "-"]].concat();
    assert_eq!(hov_unread(&arguments), Done::new(3, "", ""));
}
