//! All changes of a stretch.

use super::{chosen_lines, exclude, needed_rate, Command};
use crate::args::Takes;
use crate::failure::{bad, Outcome};
use crate::given::Given;
use crate::search::Search;
use crate::value::Form;
use crate::{lines, place, time};

pub const COMMAND: Command = Command {
    name: "changes",
    about: "Prints all changes of lines, or how many there are",
    help: include_str!("../help/changes.txt"),
    options: &[
        ("--lines", Takes::Value),
        ("--from", Takes::Value),
        ("--to", Takes::Value),
        ("--total", Takes::Nothing),
        ("--times", Takes::Nothing),
        ("--rate", Takes::Value),
        ("--hex", Takes::Nothing),
        ("--bits", Takes::Nothing),
        ("--stretches", Takes::Value),
        ("--certain", Takes::Nothing),
        ("--possible", Takes::Nothing),
        ("--stored", Takes::Nothing),
        ("--grant", Takes::Value),
    ],
    reads: true,
    run: |args, out| {
        exclude(args, "--total", "--times")?;
        Search::usage(args)?;
        let given = Given::load("changes", args)?;
        let asked = given.asked(args)?;
        let reader = &asked.reader;
        let search = Search::asked(args, &asked)?;
        let mask = lines::mask(&chosen_lines(args, &asked)?);
        let from = place::asked(args, "--from", &asked)?.unwrap_or(reader.first());
        let to = place::asked(args, "--to", &asked)?.unwrap_or(reader.end());
        let form = Form::asked(args)?;
        let total = args.flag("--total");
        if total && form != Form::Decimal {
            return Err(bad("--total prints a number; it takes no --hex or --bits"));
        }
        let rate = needed_rate(args, "--times", asked.rate)?;
        // A change at `from` is one of the stretch, so the search begins before it. There is none at the first place.
        let before = (from - 1).max(reader.first());
        let next = |from| search.next(mask, from).map(|answer| answer.found);
        let mut found = next(before)?;
        let mut count = 0;
        while let Some(place) = found.filter(|&place| place < to) {
            count += 1;
            if !total {
                let (before, now) = (reader.get(place - 1)? & mask, reader.get(place)? & mask);
                let shown = |lines, known| match known {
                    true => form.written(lines, reader.unit()),
                    false => "?".into(),
                };
                let known = search.knows(place);
                let changed = shown(before ^ now, known && search.knows(place - 1));
                let at = rate.map_or_else(|| place.to_string(), |rate| time::written(place, rate));
                writeln!(out, "{at} {} {changed}", shown(now, known))?;
            }
            found = next(place)?;
        }
        let told = if from < to { asked.told(before, to) } else { asked.told(from, from) };
        if total {
            writeln!(out, "{count}{}", told.behind())?;
        } else {
            told.end(out)?;
        }
        Ok(told.outcome(Outcome::of(count > 0)))
    },
};
