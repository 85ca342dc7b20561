//! The options of a command, and its other arguments.

use super::values::{certificate_number, file_behind, wanted_edition};
use super::{Command, Usage};
use crate::editions::Edition;
use crate::names::shown;
use std::ffi::OsString;
use std::mem;

/// The arguments of a command, with its options apart.
#[derive(Default)]
pub struct Split {
    /// Those that are no option; of several files in turn, those of the last.
    pub operands: Vec<OsString>,
    /// Those before each `--then`.
    pub before: Vec<Vec<OsString>>,
    pub certificate: Option<usize>,
    pub with: Option<OsString>,
    pub edition: Option<Edition>,
}

/// Takes the options out, up to `--`. Nothing when they ask for help.
pub fn split(
    command: Command,
    mut arguments: impl Iterator<Item = OsString>,
) -> Result<Option<Split>, Usage> {
    let mut split = Split::default();
    while let Some(argument) = arguments.next() {
        let is_option = argument.as_encoded_bytes().starts_with(b"-") && argument != "-";
        match argument.to_str() {
            _ if !is_option => split.operands.push(argument),
            Some("--") => split.operands.extend(arguments.by_ref()),
            Some("--help" | "-h") => return Ok(None),
            Some(option) if split.take(command, option, &mut arguments)? => (),
            _ => {
                let problem = format!("no such option here: '{}'", shown(&argument));
                return Err(command.wrong(problem));
            }
        }
    }
    Ok(Some(split))
}

impl Split {
    /// Takes an option with the argument behind it. False where the command has no such
    /// option, or no second one.
    fn take(
        &mut self,
        command: Command,
        option: &str,
        arguments: &mut impl Iterator<Item = OsString>,
    ) -> Result<bool, Usage> {
        match (option, command) {
            ("--certificate", Command::Show) if self.certificate.is_none() => {
                self.certificate = Some(certificate_number(arguments.next())?);
            }
            ("--with", Command::Screen) if self.with.is_none() => {
                self.with = Some(file_behind(command, option, arguments.next())?);
            }
            ("--then", Command::Replay) => {
                let file = file_behind(command, option, arguments.next())?;
                let before = mem::replace(&mut self.operands, vec![file]);
                self.before.push(before);
            }
            ("--to", Command::Convert) if self.edition.is_none() => {
                self.edition = Some(wanted_edition(arguments.next())?);
            }
            _ => return Ok(false),
        }
        Ok(true)
    }
}
