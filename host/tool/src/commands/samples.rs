//! Samples, one a line.

use super::{chosen_lines, Command};
use crate::args::Takes;
use crate::failure::Outcome;
use crate::given::Given;
use crate::reader::{from_first, Place};
use crate::value::Form;
use crate::{lines, place};

/// Samples that are copied at once.
const BLOCK: usize = 4096;

pub const COMMAND: Command = Command {
    name: "samples",
    about: "Prints samples, one a line",
    help: include_str!("../help/samples.txt"),
    options: &[
        ("--lines", Takes::Value),
        ("--from", Takes::Value),
        ("--to", Takes::Value),
        ("--hex", Takes::Nothing),
        ("--bits", Takes::Nothing),
        ("--grant", Takes::Value),
    ],
    reads: true,
    run: |args, out| {
        let given = Given::load("samples", args)?;
        let asked = given.asked(args)?;
        let reader = &asked.reader;
        let mask = lines::mask(&chosen_lines(args, &asked)?);
        let from = place::asked(args, "--from", &asked)?.unwrap_or(reader.first());
        let to = place::asked(args, "--to", &asked)?.unwrap_or(reader.end()).min(reader.end());
        let form = Form::asked(args)?;
        let mut block = [0; BLOCK];
        let mut place = from;
        let stretches = asked.stretches();
        let begin = stretches.partition_point(|s| s.first + s.count <= from_first(from));
        let mut unknown = stretches[begin..].iter().peekable();
        while place < to {
            let part = &mut block[..(to - place).min(BLOCK as Place) as usize];
            reader.samples_to(place, part)?;
            for sample in part {
                // Of the service alone it is told what is unknown.
                let at = from_first(place);
                unknown.next_if(|stretch| stretch.first + stretch.count <= at);
                let sample = match unknown.peek() {
                    Some(stretch) if stretch.first <= at => "?".into(),
                    _ => form.written(*sample & mask, reader.unit()),
                };
                writeln!(out, "{place} {sample}")?;
                place += 1;
            }
        }
        let told = if from < to { asked.told(from, to) } else { asked.told(from, from) };
        told.end(out)?;
        Ok(told.outcome(Outcome::of(from < to)))
    },
};
