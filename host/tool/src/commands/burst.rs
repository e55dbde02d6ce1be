//! The burst at a place.

use super::{chosen_lines, needed, print_found, Command};
use crate::args::Takes;
use crate::given::Given;
use crate::reader::Place;
use crate::{lines, number, place};
use capture::Burst;

pub const COMMAND: Command = Command {
    name: "burst",
    about: "Prints the burst of changes at a place",
    help: include_str!("../help/burst.txt"),
    options: &[
        ("--at", Takes::Value),
        ("--gap", Takes::Value),
        ("--tolerance", Takes::Value),
        ("--budget", Takes::Value),
        ("--lines", Takes::Value),
        ("--read", Takes::Nothing),
        ("--grant", Takes::Value),
    ],
    reads: true,
    run: |args, out| {
        let given = Given::load("burst", args)?;
        let asked = given.asked(args)?;
        let mask = lines::mask(&chosen_lines(args, &asked)?);
        let at = needed(place::asked(args, "--at", &asked)?, "--at PLACE")?;
        let gap = needed(args.read_value("--gap", number::whole)?, "--gap SAMPLES")?;
        let tolerance = args.read_value("--tolerance", number::whole)?.unwrap_or(0);
        let budget = args.read_value("--budget", number::whole)?.unwrap_or(usize::MAX);
        let burst = asked.reader.burst_at(mask, at, [gap, tolerance, budget])?;
        // Another change less than a gap away from an end would be of it; where there is none, two less than a gap apart, the
        // nearer of them in reach.
        let near = tolerance.min(gap.saturating_sub(1)) as Place;
        let (first, last) = match &burst.found {
            Some(burst) => (burst.first, burst.last),
            None => (at - near, at + near),
        };
        let told = asked.told(first - gap as Place, last + gap as Place);
        let written = burst.map(|Burst { first, last, jumps_at_end, jumps_at_start }| {
            format!("{first} {last} {jumps_at_end} {jumps_at_start}")
        });
        print_found(args, written, told, out)
    },
};
