//! The summary of a stretch.

use super::{chosen_lines, Command};
use crate::args::Takes;
use crate::failure::Outcome;
use crate::given::Given;
use crate::value::Form;
use crate::{lines, place};

pub const COMMAND: Command = Command {
    name: "summary",
    about: "Prints the first and the last sample of a stretch, and the lines that change in it",
    help: include_str!("../help/summary.txt"),
    options: &[
        ("--lines", Takes::Value),
        ("--from", Takes::Value),
        ("--to", Takes::Value),
        ("--hex", Takes::Nothing),
        ("--bits", Takes::Nothing),
        ("--grant", Takes::Value),
    ],
    reads: true,
    run: |args, out| {
        let given = Given::load("summary", args)?;
        let asked = given.asked(args)?;
        let reader = &asked.reader;
        let mask = lines::mask(&chosen_lines(args, &asked)?);
        let from = place::asked(args, "--from", &asked)?.unwrap_or(reader.first());
        let to = place::asked(args, "--to", &asked)?.unwrap_or(reader.end());
        let form = Form::asked(args)?;
        let Some(node) = reader.summary(from, to)? else { return Ok(Outcome::No) };
        let [first, last, toggles] = [node.first, node.last, node.toggles]
            .map(|lines| form.written(lines & mask, reader.unit()));
        let told = asked.told(from, to);
        writeln!(out, "{first} {last} {toggles}{}", told.behind())?;
        Ok(told.outcome(Outcome::Yes))
    },
};
