//! What is good of a damaged shelf file, saved as one of its own.

use super::{needed, Command};
use crate::args::{Args, Takes};
use crate::card::{Card, Tie};
use crate::failure::{bad, Failure, Outcome};
use crate::given::{beside, Papers};
use crate::output::Listed;
use crate::source::Source;
use crate::stretches::{self, joined};
use crate::sum::Sum;
use crate::told::Told;
use capture::{Capture, Salvaged, Stretch};
use std::io::Write;

pub const COMMAND: Command = Command {
    name: "salvage",
    about: "Reads what is good of a damaged shelf file, and saves it as a sound one",
    help: include_str!("../help/salvage.txt"),
    options: &[
        ("--output", Takes::Value),
        ("--card", Takes::Value),
        ("--no-card", Takes::Nothing),
        ("--grant", Takes::Refused("files are not given to mills")),
    ],
    reads: false,
    run,
};

/// What is said where the card beside the file would be the folder's.
const NO_CARD: &str =
    "INPUT has a card, and a file of this name can have none beside it; see --no-card";

fn run(args: &Args, out: &mut dyn Write) -> Result<Outcome, Failure> {
    let path = needed(args.path("--output"), "-o FILE")?;
    if path == "-" {
        return Err(bad("--output -: standard output is taken; name a file"));
    }
    let file = args.file().ok_or_else(|| bad("which file? - is standard input"))?;
    let mut source = Source::open(file)?;
    let papers = Papers::asked(args, file)?;
    let mut output = Listed::open(path, stretches::ENDING)?;
    if papers.has_own() {
        let card = beside(path).ok_or_else(|| bad(NO_CARD))?;
        output = output.carded(&card)?;
    }
    let salvaged =
        Capture::salvage_from(&mut source, None).map_err(|error| source.bad(&error.to_string()))?;
    let Salvaged { capture, stretches, .. } = &salvaged;
    // Saved before anything is printed: who reads that may not read to its end.
    let unknown = match papers.of_damaged(capture)? {
        None => {
            output.write(
                |to| capture.write_to(to).map(|_| ()),
                |to| stretches::write(to, stretches),
            )?;
            stretches.clone()
        }
        Some(card) => {
            // What was unknown before is unknown still, wherever the blocks of its zeros are good.
            let unknown = joined(stretches, &card.unknown);
            let card = Card { unknown, ..card };
            let mut bytes = Vec::with_capacity(capture.file_len());
            capture.write_to(&mut bytes).map_err(|error| source.bad(&error.to_string()))?;
            let tie = Tie::new(capture, Sum::of(&bytes));
            output.write_all(
                |to| to.write_all(&bytes),
                |to| stretches::write(to, &card.unknown),
                |to| card.write(to, &tie, &[]),
            )?;
            card.unknown
        }
    };
    print(&salvaged, &unknown, out)?;
    Ok(match (salvaged.replaced, unknown.is_empty()) {
        (0, true) => Outcome::Yes,
        (0, false) => Outcome::Unknown,
        _ => Outcome::No,
    })
}

fn print(salvaged: &Salvaged, unknown: &[Stretch], out: &mut dyn Write) -> Result<(), Failure> {
    let Salvaged { capture, stretches, replaced, unread } = salvaged;
    let share = |count| share(count, capture.len());
    for &Stretch { first, count } in unknown {
        writeln!(out, "{first} {count} {}", share(count))?;
    }
    write!(out, "stretches {} replaced {replaced} share {}", unknown.len(), share(*replaced))?;
    if *unread > 0 {
        write!(out, " unread {unread}")?;
    }
    // Some were unknown before.
    if unknown != stretches {
        let count = unknown.iter().map(|stretch| stretch.count).sum();
        write!(out, "{}", Told::Count(count).behind())?;
    }
    writeln!(out)?;
    Ok(())
}

/// What part so many samples are of all.
fn share(count: usize, len: usize) -> String {
    format!("{:.4}%", 100.0 * count as f64 / len.max(1) as f64)
}

#[cfg(test)]
mod tests {
    use super::*;
    use crate::file::captured;

    #[test]
    fn blocks_that_could_not_be_read_are_told() {
        let (capture, stretches) = (captured(&[0; 1000], None), vec![]);
        let mut salvaged = Salvaged { capture, stretches, replaced: 0, unread: 0 };
        let printed = |salvaged: &Salvaged| {
            let mut out = Vec::new();
            print(salvaged, &salvaged.stretches, &mut out).unwrap();
            String::from_utf8(out).unwrap()
        };
        assert_eq!(printed(&salvaged), "stretches 0 replaced 0 share 0.0000%\n");
        salvaged.stretches = vec![Stretch { first: 500, count: 500 }];
        (salvaged.replaced, salvaged.unread) = (500, 1);
        let lines = "500 500 50.0000%\nstretches 1 replaced 500 share 50.0000% unread 1\n";
        assert_eq!(printed(&salvaged), lines);
    }

    #[test]
    fn shares() {
        assert_eq!(share(0, 0), "0.0000%");
        assert_eq!(share(500, 1_000_000), "0.0500%");
        assert_eq!(share(1, 3), "33.3333%");
        assert_eq!(share(67_108_864, 67_108_864), "100.0000%");
    }
}
