//! An output that nobody reads.

use std::io::Write;
use std::process::{Command, Stdio};
use std::thread;
use std::time::Duration;

/// A pipe whose other end is closed.
pub fn closed_pipe() -> Stdio {
    // A program that has ended has closed its standard input.
    let mut reader = Command::new("true")
        .stdin(Stdio::piped())
        .spawn()
        .expect("`true` runs");
    let mut pipe = reader.stdin.take().expect("a pipe");
    reader.wait().expect("`true` ends");
    // A program that another test is just starting may have that end for a moment.
    while pipe.write(&[0]).is_ok() {
        thread::sleep(Duration::from_millis(1));
    }
    pipe.into()
}
