//! Whoever can take a list's lines: the document, the Rust, and the port.

use crate::op::Op;

/// The values of an answer, or the number of a refusal.
pub type Answer = Result<Vec<u64>, u64>;

pub trait Side {
    /// Takes a line after those before it. None where this side has no answer:
    /// the line wants none, the Rust panics, or it lacks the call.
    fn take(&mut self, op: &Op) -> Option<Answer>;
}
