//! Standard output and standard error.

use crate::names;
use hovmekhar::Refusal;
use std::ffi::OsStr;
use std::fs::File;
use std::io::{self, ErrorKind, Write};
use std::os::fd::AsFd;

/// Something that could not be read or written.
#[derive(Debug)]
pub enum Trouble {
    /// A file, by its name, or standard input.
    File(String, io::Error),
    /// Standard output.
    Output(io::Error),
}

impl Trouble {
    /// Trouble with a file that is read; `-` is standard input.
    pub fn reading(name: &OsStr, error: io::Error) -> Self {
        let is_input = name == "-";
        let subject = if is_input {
            "standard input".into()
        } else {
            names::shown(name)
        };
        Self::File(subject, error)
    }

    /// Tells it on standard error. A closed pipe is what its reader wanted, so
    /// nothing is said about it.
    pub fn tell(&self) {
        match self {
            Self::Output(error) if error.kind() == ErrorKind::BrokenPipe => {}
            Self::Output(error) => complain(&format!("standard output: {}", reason(error))),
            Self::File(name, error) => complain(&format!("{name}: {}", reason(error))),
        }
    }
}

/// Writes all of this to standard output.
///
/// # Errors
///
/// When it does not take all of it. The standard library's handle holds back what
/// has no line end, and takes a descriptor that can't be written to for one that
/// takes all; a file has neither habit.
pub fn print(bytes: &[u8]) -> Result<(), Trouble> {
    let write = || {
        let output = io::stdout().as_fd().try_clone_to_owned()?;
        File::from(output).write_all(bytes)
    };
    write().map_err(Trouble::Output)
}

/// Writes a line to standard output.
///
/// # Errors
///
/// As for [`print`].
pub fn print_line(line: &str) -> Result<(), Trouble> {
    print(format!("{line}\n").as_bytes())
}

/// Writes a line to standard error, with the program's name in front.
pub fn complain(line: &str) {
    tell(&format!("hov: {line}"));
}

/// Writes a line to standard error. Where that is not taken, nobody is left to be
/// told.
pub fn tell(line: &str) {
    let _ = io::stderr().write_all(format!("{line}\n").as_bytes());
}

/// The line of a refusal: the verdict first, so that no name passes for one.
pub fn refused(refusal: Refusal, name: &OsStr) -> String {
    let Refusal { number, spot } = refusal;
    let name = names::shown(name);
    let sentence = refusal.sentence();
    let advice = refusal.kind().map_or("", |kind| kind.advice());
    format!("refused {number} {spot} {name}: {sentence}; {advice}")
}

/// An error without its number, which says nothing to a person.
fn reason(error: &io::Error) -> String {
    let text = error.to_string();
    match error.raw_os_error() {
        Some(code) => text.replace(&format!(" (os error {code})"), ""),
        None => text,
    }
}
