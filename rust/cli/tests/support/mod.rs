//! `hov`, run as a person or a script runs it.

// Each test program has this module, and none uses all of it.
#![allow(dead_code)]

#[path = "../../../hovmekhar/tests/closed_pipe/mod.rs"]
mod closed_pipe;

use closed_pipe::closed_pipe;
use differential::files::build;
use differential::samples;
use hovmekhar::Refusal;
use std::ffi::OsStr;
use std::fs;
use std::io::{ErrorKind, Write};
use std::path::{Path, PathBuf};
use std::process::{Child, Command, Output, Stdio};

/// What `hov` did.
#[derive(Clone, Debug, PartialEq, Eq)]
pub struct Done {
    pub status: i32,
    pub output: String,
    pub errors: String,
}

impl Done {
    pub fn of(done: Output) -> Self {
        Self {
            status: done.status.code().expect("hov ends by itself"),
            output: String::from_utf8(done.stdout).expect("lines are text"),
            errors: String::from_utf8(done.stderr).expect("messages are text"),
        }
    }

    pub fn new(status: i32, output: &str, errors: &str) -> Self {
        Self {
            status,
            output: output.into(),
            errors: errors.into(),
        }
    }
}

/// `hov` in the root of the repository, with these arguments and an empty standard
/// input.
pub fn command<A: AsRef<OsStr>>(arguments: &[A]) -> Command {
    let mut command = Command::new(env!("CARGO_BIN_EXE_hov"));
    command
        .args(arguments)
        .current_dir(Path::new(env!("CARGO_MANIFEST_DIR")).join("../.."))
        .stdin(Stdio::null());
    command
}

/// Runs `hov` with an empty standard input.
pub fn hov<A: AsRef<OsStr>>(arguments: &[A]) -> Done {
    Done::of(command(arguments).output().expect("hov runs"))
}

/// Runs `hov` in this directory.
pub fn hov_in<A: AsRef<OsStr>>(directory: &Path, arguments: &[A]) -> Done {
    let mut command = command(arguments);
    Done::of(command.current_dir(directory).output().expect("hov runs"))
}

/// Runs `hov` with an empty standard input and a standard output that nobody reads.
pub fn hov_unread<A: AsRef<OsStr>>(arguments: &[A]) -> Done {
    let mut command = command(arguments);
    Done::of(command.stdout(closed_pipe()).output().expect("hov runs"))
}

/// Starts `hov` with pipes.
pub fn start<A: AsRef<OsStr>>(arguments: &[A]) -> Child {
    command(arguments)
        .stdin(Stdio::piped())
        .stdout(Stdio::piped())
        .stderr(Stdio::piped())
        .spawn()
        .expect("hov starts")
}

/// Runs `hov` with this standard input, and returns its standard output as bytes.
pub fn hov_with<A: AsRef<OsStr>>(arguments: &[A], input: &[u8]) -> (i32, Vec<u8>, String) {
    let mut running = start(arguments);
    let mut pipe = running.stdin.take().expect("a pipe");
    match pipe.write_all(input) {
        // It need not read more than the longest input and a byte.
        Err(error) if error.kind() == ErrorKind::BrokenPipe => {}
        result => result.expect("hov reads"),
    }
    drop(pipe);
    let done = running.wait_with_output().expect("hov ends");
    (
        done.status.code().expect("hov ends by itself"),
        done.stdout,
        String::from_utf8(done.stderr).expect("messages are text"),
    )
}

/// A directory of this name, new and empty.
pub fn directory(name: &str) -> PathBuf {
    let directory = Path::new(env!("CARGO_TARGET_TMPDIR")).join(name);
    if directory.exists() {
        fs::remove_dir_all(&directory).expect("the old directory is removed");
    }
    fs::create_dir_all(&directory).expect("the directory is made");
    directory
}

/// Writes the sealed file of a bundle, and returns its name.
pub fn sealed(directory: &Path, name: &str, bundle: &[u8]) -> String {
    let path = directory.join(name);
    fs::write(&path, build(bundle)).expect("the file is written");
    path.to_str().expect("a name in text").into()
}

/// The names in a directory, sorted.
pub fn names_in(directory: &Path) -> Vec<String> {
    let entries = fs::read_dir(directory).expect("the directory is read");
    let mut names: Vec<String> = entries
        .map(|entry| entry.expect("an entry").file_name())
        .map(|name| name.into_string().expect("a name in text"))
        .collect();
    names.sort();
    names
}

/// The path of a sample file.
pub fn sample(name: &str) -> PathBuf {
    samples::directory().join(name)
}

/// The line that a word has which is stopped: position, place and shortfall. `whose` tells
/// more of the place.
pub fn stopped(word: &[u8], numbers: [usize; 3], whose: &str) -> String {
    let [position, place, shortfall] = numbers;
    let event = word[position];
    let step = format!("event {event} at position {position}");
    let tokens = if shortfall == 1 { "token" } else { "tokens" };
    let missing = format!("{shortfall} {tokens} missing");
    let numbers = numbers.map(|number| number.to_string()).join(" ");
    format!("stopped {numbers}: {step}, refused by place {place}{whose}; {missing}\n")
}

/// The line that a refusal has, for a file that is shown by this name.
pub fn refused(number: u8, spot: usize, name: &str) -> String {
    let refusal = Refusal { number, spot };
    let advice = refusal.kind().expect("a number of the table").advice();
    let whole = refusal.to_string();
    let sentence = whole.strip_prefix(&format!("refusal {number}: "));
    let sentence = sentence.expect("the number stands before");
    format!("refused {number} {spot} {name}: {sentence}; {advice}\n")
}
