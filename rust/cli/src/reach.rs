//! `hov reach`.

use crate::output::{self, Trouble};
use crate::show::spaced;
use crate::{screen, Status};
use hovmekhar::{Reached, MAX_REACH_EVENTS};
use std::ffi::OsStr;

/// Prints a shortest word after which the net of a file permits an event.
///
/// # Errors
///
/// When the file can't be read, or standard output does not take the line.
pub fn reach(name: &OsStr, wanted: u8) -> Result<Status, Trouble> {
    let file = screen::read(name)?;
    let reached =
        hovmekhar::open_vec(&file).and_then(|bundle| hovmekhar::reach(&bundle, wanted.into()));
    let (status, line) = match reached {
        Ok(Some(word)) => (Status::Good, found(&word, wanted)),
        Ok(None) => (
            Status::Refused,
            format!("none: no word of at most {MAX_REACH_EVENTS} events leads to event {wanted}"),
        ),
        Err(refusal) => return screen::refused(refusal, name),
    };
    output::print_line(&line)?;
    Ok(status)
}

/// The line of a word. Its events stand in front, as `hov screen` takes them.
fn found(word: &Reached, wanted: u8) -> String {
    let events = spaced(word.as_slice());
    match word.as_slice() {
        [] => format!("reached: event {wanted} is permitted at first"),
        [_] => format!("reached {events}: event {wanted} is permitted after event {events}"),
        _ => format!("reached {events}: event {wanted} is permitted after events {events}"),
    }
}
