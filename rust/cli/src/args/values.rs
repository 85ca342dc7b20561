//! Arguments that stand for a value.

use super::{Command, Part, Usage};
use crate::editions::Edition;
use crate::names::shown;
use std::ffi::{OsStr, OsString};

/// The edition that `--to` names.
pub fn wanted_edition(argument: Option<OsString>) -> Result<Edition, Usage> {
    let edition = argument.as_deref().and_then(Edition::of);
    edition.ok_or_else(|| {
        let given = argument.as_deref().map(shown).unwrap_or_default();
        Command::Convert.wrong(format!("no edition: '{given}'"))
    })
}

/// The number that `--certificate` gives.
pub fn certificate_number(argument: Option<OsString>) -> Result<usize, Usage> {
    let number = argument.as_deref().and_then(digits);
    // A plus sign is no digit, so what is left to fail is a number that is too large.
    let number = number.and_then(|digits| digits.parse().ok());
    number.ok_or_else(|| {
        let given = argument.as_deref().map(shown).unwrap_or_default();
        Command::Show.wrong(format!("no number of a certificate: '{given}'"))
    })
}

/// A file, and the events of a word behind it.
pub fn file_and_word(command: Command, operands: Vec<OsString>) -> Result<Part, Usage> {
    let mut operands = operands.into_iter();
    let file = operands.next();
    let file = file.ok_or_else(|| command.wrong("no file".into()))?;
    let events = operands.map(|argument| event(command, &argument));
    let word = events.collect::<Result<Vec<u8>, Usage>>()?;
    Ok(Part { file, word })
}

/// An event.
pub fn event(command: Command, argument: &OsStr) -> Result<u8, Usage> {
    event_number(argument).ok_or_else(|| {
        let problem = format!("no event of 1 to 20 digits: '{}'", shown(argument));
        command.wrong(problem)
    })
}

/// The file that is due behind an option.
pub fn file_behind(
    command: Command,
    option: &str,
    argument: Option<OsString>,
) -> Result<OsString, Usage> {
    argument.ok_or_else(|| command.wrong(format!("no file behind '{option}'")))
}

/// Checks that `-` is among these files once at most.
pub fn one_standard_input<'f>(
    command: Command,
    files: impl IntoIterator<Item = &'f OsString>,
) -> Result<(), Usage> {
    let inputs = files.into_iter().filter(|&name| name == "-");
    if inputs.count() > 1 {
        let problem = "standard input is read once, but '-' is there twice";
        return Err(command.wrong(problem.into()));
    }
    Ok(())
}

/// The number of an event. Above 255 it is cut, which changes no answer, since no
/// bundle has more than twelve events.
fn event_number(argument: &OsStr) -> Option<u8> {
    let digits = digits(argument).filter(|digits| digits.len() <= 20)?;
    let number: u128 = digits.parse().ok()?;
    Some(u8::try_from(number).unwrap_or(u8::MAX))
}

/// The argument, when it is one decimal digit or more.
fn digits(argument: &OsStr) -> Option<&str> {
    let text = argument.to_str()?;
    let all_digits = text.bytes().all(|byte| byte.is_ascii_digit());
    (all_digits && !text.is_empty()).then_some(text)
}
