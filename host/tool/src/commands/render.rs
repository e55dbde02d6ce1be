//! The waveform of a stretch, as text or as a picture.

use super::{chosen_lines, exclude, only_with, read_width, Command};
use crate::args::{Args, Takes};
use crate::failure::{bad, Failure, Outcome};
use crate::given::{Asked, Given};
use crate::names::Names;
use crate::output::Output;
use crate::text::{self, Style};
use crate::value::Form;
use crate::wave::Wave;
use crate::{lines, note, number, place, svg};
use capture::View;
use std::io::Write;

pub const COMMAND: Command = Command {
    name: "render",
    about: "Draws the waveform of lines, as text or as an SVG picture",
    help: include_str!("../help/render.txt"),
    options: &[
        ("--lines", Takes::Value),
        ("--from", Takes::Value),
        ("--to", Takes::Value),
        ("--width", Takes::Value),
        ("--name", Takes::Values),
        ("--ascii", Takes::Nothing),
        ("--svg", Takes::Value),
        ("--pixels", Takes::Nothing),
        ("--start", Takes::Value),
        ("--spp", Takes::Value),
        ("--hex", Takes::Nothing),
        ("--bits", Takes::Nothing),
        ("--stretches", Takes::Value),
        ("--grant", Takes::Value),
    ],
    reads: true,
    run,
};

/// Characters, and units of a picture.
const TEXT_WIDTH: usize = 72;
const SVG_WIDTH: usize = 1000;

fn run(args: &Args, out: &mut dyn Write) -> Result<Outcome, Failure> {
    only_with(args, "--pixels", &["--start", "--spp", "--hex", "--bits"])?;
    for name in ["--ascii", "--svg", "--from", "--to", "--name", "--stretches"] {
        exclude(args, "--pixels", name)?;
    }
    exclude(args, "--ascii", "--svg")?;
    let width = args.read_value("--width", read_width)?;
    let picture = args.path("--svg").map(Output::open).transpose()?;
    let given = Given::load("render", args)?;
    let asked = given.asked(args)?;
    let reader = &asked.reader;
    if args.flag("--pixels") {
        return pixels(args, &asked, width.unwrap_or(TEXT_WIDTH), out);
    }
    let chosen = labelled(args, &asked)?;
    let from = place::asked(args, "--from", &asked)?.unwrap_or(reader.first());
    let to = place::asked(args, "--to", &asked)?.unwrap_or(reader.end());
    let width = width.unwrap_or(if picture.is_some() { SVG_WIDTH } else { TEXT_WIDTH });
    let Some(mut wave) = Wave::new(reader, from, to, width)? else {
        note("render", "no samples to draw");
        return Ok(Outcome::No);
    };
    let unknown = asked.stretches();
    if !unknown.is_empty() {
        wave.shade(&given.capture, unknown);
    }
    let mark = reader.mark();
    match picture {
        Some(picture) => picture.write(out, |file| svg::draw(file, &wave, &chosen, mark, width))?,
        None => {
            let style = if args.flag("--ascii") { Style::Ascii } else { Style::Boxes };
            text::draw(out, &wave, &chosen, mark, style, width)?;
        }
    }
    Ok(Outcome::Yes)
}

/// The pixels of a view as they are, for programs that draw themselves.
fn pixels(
    args: &Args,
    asked: &Asked,
    width: usize,
    out: &mut dyn Write,
) -> Result<Outcome, Failure> {
    let reader = &asked.reader;
    let mask = lines::mask(&chosen_lines(args, asked)?);
    let form = Form::asked(args)?;
    let start = args.read_value("--start", number::real)?.unwrap_or(reader.first() as f64);
    let all = (reader.end() - reader.first()) as f64 / width as f64;
    let spp = args.read_value("--spp", number::real)?.unwrap_or(all);
    for pixel in reader.render(View { start, spp }, width)? {
        let [first, toggles] =
            [pixel.first, pixel.toggles].map(|lines| form.written(lines & mask, reader.unit()));
        writeln!(out, "{first} {toggles}")?;
    }
    Ok(Outcome::Yes)
}

/// The chosen lines, each with its number and its name. Names behind --name go before those of cards.
fn labelled(args: &Args, asked: &Asked) -> Result<Vec<(u8, String)>, Failure> {
    let mut given = Names::default();
    for text in args.texts("--name") {
        let text = text?;
        let named = lines::read_name(text, asked.reader.unit());
        let (line, name) = named.map_err(|what| bad(format!("--name {text}: {what}")))?;
        // The first name of a line is its name.
        if given.of(line).is_none() {
            given.put(line, name);
        }
    }
    let mut names = asked.names.clone();
    given.iter().for_each(|(line, name)| names.put(line, name.into()));
    let label = |line: u8| match names.of(line) {
        Some(name) => (line, format!("{line:>2} {name}")),
        None => (line, format!("{line:>2}")),
    };
    Ok(chosen_lines(args, asked)?.into_iter().map(label).collect())
}
