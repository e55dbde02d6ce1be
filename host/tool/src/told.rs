//! What is told of unknown samples beside an answer, as a word that scripts can read.

use crate::failure::{Failure, Outcome};
use std::io::Write;

/// How much of what was looked at is unknown.
#[derive(Clone, Copy, Debug, PartialEq, Eq)]
pub enum Told {
    /// All is known.
    Nothing,
    /// So many samples are unknown.
    Count(usize),
    /// A mill is told that some samples of the capture are, and not which or how many: lengths of stretches tell the unit.
    Word,
}

impl Told {
    /// Of so many unknown samples.
    pub fn of(count: usize) -> Told {
        match count {
            0 => Told::Nothing,
            _ => Told::Count(count),
        }
    }

    /// The word, if there is anything to tell.
    pub fn word(self) -> Option<String> {
        match self {
            Told::Nothing => None,
            Told::Count(count) => Some(format!("unknown={count}")),
            Told::Word => Some("unknown".into()),
        }
    }

    /// The word behind an answer.
    pub fn behind(self) -> String {
        self.word().map(|word| format!(" {word}")).unwrap_or_default()
    }

    /// The word as the last line of a list.
    pub fn end(self, out: &mut dyn Write) -> Result<(), Failure> {
        if let Some(word) = self.word() {
            writeln!(out, "{word}")?;
        }
        Ok(())
    }

    /// How a command ends whose answer rests on this.
    pub fn outcome(self, known: Outcome) -> Outcome {
        match self {
            Told::Nothing => known,
            Told::Count(_) | Told::Word => Outcome::Unknown,
        }
    }
}
