//! Whether a capture is whole.

use super::Command;
use crate::args::Takes;
use crate::failure::Outcome;
use crate::given::Given;

pub const COMMAND: Command = Command {
    name: "check",
    about: "Checks a shelf file, its card, and every summary that is made of it",
    help: include_str!("../help/check.txt"),
    options: &[("--grant", Takes::Refused("the check of summaries is not given to mills"))],
    reads: true,
    run: |args, out| {
        let capture = Given::load("check", args)?.capture;
        match capture.whole() {
            Ok(()) => writeln!(out, "whole")?,
            Err(wrong) => {
                writeln!(out, "wrong {} {}", wrong.level, wrong.number)?;
                return Ok(Outcome::No);
            }
        }
        Ok(Outcome::Yes)
    },
};
