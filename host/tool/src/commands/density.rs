//! How many changes there are, and where a capture is busy.

use super::{exclude, only_with, read_width, Command};
use crate::args::{Args, Takes};
use crate::failure::{bad, Failure, Outcome};
use crate::given::Given;
use crate::output::Output;
use crate::parts::Parts;
use crate::text::Style;
use crate::wave::MOST_COLUMNS;
use crate::{bars, note, number, place};
use std::io::Write;

pub const COMMAND: Command = Command {
    name: "density",
    about: "Prints how many changes there are, in parts too, and draws them as bars",
    help: include_str!("../help/density.txt"),
    options: &[
        ("--from", Takes::Value),
        ("--to", Takes::Value),
        ("--parts", Takes::Value),
        ("--width", Takes::Value),
        ("--ascii", Takes::Nothing),
        ("--svg", Takes::Value),
        (
            "--grant",
            Takes::Refused("the count of changes tells of all lines, and is not given to mills"),
        ),
    ],
    reads: true,
    run,
};

/// Characters of the longest bar, and units of a picture.
const TEXT_WIDTH: usize = 50;
const SVG_WIDTH: usize = 1000;

/// The parts of a picture, where they are not said.
const SVG_PARTS: usize = 100;

fn run(args: &Args, out: &mut dyn Write) -> Result<Outcome, Failure> {
    only_with(args, "--parts", &["--ascii"])?;
    exclude(args, "--ascii", "--svg")?;
    let count = args.read_value("--parts", read_parts)?;
    let width = args.read_value("--width", read_width)?;
    if width.is_some() && count.is_none() && !args.flag("--svg") {
        return Err(bad("--width goes with --parts or --svg"));
    }
    let picture = args.path("--svg").map(Output::open).transpose()?;
    let given = Given::load("density", args)?;
    let asked = given.asked(args)?;
    let (capture, reader) = (&given.capture, &asked.reader);
    let from = place::asked(args, "--from", &asked)?.unwrap_or(reader.first());
    let to = place::asked(args, "--to", &asked)?.unwrap_or(reader.end()).min(reader.end());
    let samples = usize::try_from(to - from).unwrap_or(0);
    if let Some(parts) = count.filter(|&parts| parts > samples) {
        return Err(bad(format!("--parts {parts}: the stretch has {samples} samples")));
    }
    let told = asked.told(from, to);
    let parts = |count| Parts::new(capture, from, to, count);
    let most = match (picture, count) {
        (Some(_), None) if samples == 0 => {
            note("density", "no samples to draw");
            return Ok(Outcome::No);
        }
        (Some(picture), _) => {
            let parts = parts(count.unwrap_or(SVG_PARTS.min(samples)));
            let width = width.unwrap_or(SVG_WIDTH);
            picture.write(out, |file| bars::draw(file, &parts, reader.mark(), width))?;
            parts.most()
        }
        (None, Some(count)) => {
            let parts = parts(count);
            let style = if args.flag("--ascii") { Style::Ascii } else { Style::Boxes };
            bars::print(out, &parts, style, width.unwrap_or(TEXT_WIDTH))?;
            told.end(out)?;
            parts.most()
        }
        (None, None) => {
            let count = capture.density(from as usize, to as usize);
            writeln!(out, "{count}{}", told.behind())?;
            count
        }
    };
    Ok(told.outcome(Outcome::of(most > 0)))
}

fn read_parts(text: &str) -> Result<usize, String> {
    match number::whole(text)? {
        parts @ 1..=MOST_COLUMNS => Ok(parts),
        _ => Err(format!("parts are 1 to {MOST_COLUMNS}")),
    }
}
