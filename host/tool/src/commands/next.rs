//! The next change.

use super::{chosen_lines, print_found, Command};
use crate::args::Takes;
use crate::given::Given;
use crate::search::Search;
use crate::{lines, place};

pub const COMMAND: Command = Command {
    name: "next",
    about: "Prints the place of the next change of lines",
    help: include_str!("../help/next.txt"),
    options: &[
        ("--lines", Takes::Value),
        ("--from", Takes::Value),
        ("--stretches", Takes::Value),
        ("--certain", Takes::Nothing),
        ("--possible", Takes::Nothing),
        ("--stored", Takes::Nothing),
        ("--read", Takes::Nothing),
        ("--grant", Takes::Value),
    ],
    reads: true,
    run: |args, out| {
        Search::usage(args)?;
        let given = Given::load("next", args)?;
        let asked = given.asked(args)?;
        let search = Search::asked(args, &asked)?;
        let mask = lines::mask(&chosen_lines(args, &asked)?);
        let from = place::asked(args, "--from", &asked)?.unwrap_or(asked.reader.first());
        let found = search.next(mask, from)?;
        let told = asked.told(from, found.found.map_or(asked.reader.end(), |place| place + 1));
        print_found(args, found.map(|place| place.to_string()), told, out)
    },
};
