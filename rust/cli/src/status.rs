//! How a run ended.

use std::process::ExitCode;

/// How a run ended, with the status that the program ends with. The higher one
/// wins where several files end differently.
#[derive(Clone, Copy, Debug, PartialEq, Eq, PartialOrd, Ord)]
pub enum Status {
    /// All accepted, permitted, reached or written.
    Good = 0,
    /// Some refused or stopped, or not reached.
    Refused = 1,
    /// The arguments are wrong.
    Usage = 2,
    /// Something could not be read or written.
    Trouble = 3,
}

impl From<Status> for ExitCode {
    fn from(status: Status) -> Self {
        ExitCode::from(status as u8)
    }
}
