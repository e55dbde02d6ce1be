//! How a command ends.

use capture::Refusal;
use std::io;

/// The answer of a command that was done.
#[derive(Clone, Copy, Debug, PartialEq, Eq)]
pub enum Outcome {
    Yes,
    /// There is none, or not what was asked for.
    No,
    /// The answer rests on samples that nobody knows.
    Unknown,
}

impl Outcome {
    pub fn of(yes: bool) -> Outcome {
        if yes {
            Outcome::Yes
        } else {
            Outcome::No
        }
    }

    /// The exit status. Bad usage or input has 2.
    pub fn status(self) -> u8 {
        match self {
            Outcome::Yes => 0,
            Outcome::No => 1,
            Outcome::Unknown => 3,
        }
    }
}

/// The exit status of bad usage or input.
pub const BAD: u8 = 2;

/// What ends a command early.
#[derive(Debug, PartialEq, Eq)]
pub enum Failure {
    /// Bad usage or input: a line that says what was wrong and where.
    Bad(String),
    /// Nobody reads the output any more.
    Unread,
}

pub fn bad(what: impl Into<String>) -> Failure {
    Failure::Bad(what.into())
}

impl From<Refusal> for Failure {
    fn from(refusal: Refusal) -> Failure {
        bad(refusal.to_string())
    }
}

/// Of what a command prints. Files are named where they fail.
impl From<io::Error> for Failure {
    fn from(error: io::Error) -> Failure {
        match error.kind() {
            io::ErrorKind::BrokenPipe => Failure::Unread,
            _ => bad(format!("standard output: {error}")),
        }
    }
}
