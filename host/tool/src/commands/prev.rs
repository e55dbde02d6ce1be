//! The previous change.

use super::{chosen_lines, print_found, Command};
use crate::args::Takes;
use crate::given::Given;
use crate::search::Search;
use crate::{lines, place};

pub const COMMAND: Command = Command {
    name: "prev",
    about: "Prints the place of the previous change of lines",
    help: include_str!("../help/prev.txt"),
    options: &[
        ("--lines", Takes::Value),
        ("--from", Takes::Value),
        ("--stretches", Takes::Value),
        ("--certain", Takes::Nothing),
        ("--possible", Takes::Nothing),
        ("--stored", Takes::Nothing),
        ("--read", Takes::Nothing),
        ("--grant", Takes::Value),
    ],
    reads: true,
    run: |args, out| {
        Search::usage(args)?;
        let given = Given::load("prev", args)?;
        let asked = given.asked(args)?;
        let search = Search::asked(args, &asked)?;
        let mask = lines::mask(&chosen_lines(args, &asked)?);
        let from = place::asked(args, "--from", &asked)?.unwrap_or(asked.reader.end());
        let found = search.prev(mask, from)?;
        let told = asked.told(found.found.unwrap_or(asked.reader.first()), from + 1);
        print_found(args, found.map(|place| place.to_string()), told, out)
    },
};
