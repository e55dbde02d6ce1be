//! All bursts of a capture.

use super::{chosen_lines, needed, Command};
use crate::args::Takes;
use crate::failure::Outcome;
use crate::given::Given;
use crate::{lines, number};
use capture::ListedBurst;

pub const COMMAND: Command = Command {
    name: "bursts",
    about: "Prints all bursts of changes, or how many there are",
    help: include_str!("../help/bursts.txt"),
    options: &[
        ("--gap", Takes::Value),
        ("--lines", Takes::Value),
        ("--total", Takes::Nothing),
        ("--grant", Takes::Value),
    ],
    reads: true,
    run: |args, out| {
        let given = Given::load("bursts", args)?;
        let asked = given.asked(args)?;
        let mask = lines::mask(&chosen_lines(args, &asked)?);
        let gap = needed(args.read_value("--gap", number::whole)?, "--gap SAMPLES")?;
        let total = args.flag("--total");
        let (mut count, mut sum) = (0, 0);
        for ListedBurst { first, last, changes } in asked.reader.bursts(mask, gap)? {
            count += 1;
            sum += changes;
            if !total {
                writeln!(out, "{first} {last} {changes}")?;
            }
        }
        let told = asked.told_of_all();
        if total {
            writeln!(out, "{count} {sum}{}", told.behind())?;
        } else {
            told.end(out)?;
        }
        Ok(told.outcome(Outcome::of(count > 0)))
    },
};
