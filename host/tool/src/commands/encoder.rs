//! How far an encoder has turned.

use super::{exclude, needed, Command};
use crate::args::{Args, Takes};
use crate::encoders;
use crate::failure::{bad, Failure, Outcome};
use crate::given::{Asked, Given};
use crate::lines::read_line;
use capture::Encoder;

pub const COMMAND: Command = Command {
    name: "encoder",
    about: "Prints how far an encoder with two lines has turned, and its steps",
    help: include_str!("../help/encoder.txt"),
    options: &[
        ("--a", Takes::Value),
        ("--b", Takes::Value),
        ("--encoder", Takes::Value),
        ("--steps-per-turn", Takes::Value),
        ("--grant", Takes::Value),
    ],
    reads: true,
    run: |args, out| {
        let turn = args.read_value("--steps-per-turn", encoders::read_steps)?;
        let given = Given::load("encoder", args)?;
        let asked = given.asked(args)?;
        let (a, b, steps) = asked_for(args, &asked)?;
        let Encoder { position, forward, backward, skipped } = asked
            .reader
            .encoder(a, b)
            .map_err(|refusal| bad(format!("--a {a} --b {b}: {refusal}")))?;
        write!(out, "position {position} forward {forward} backward {backward} skipped {skipped}")?;
        if let Some(turn) = turn.or(steps) {
            write!(out, " turns {}", position as f64 / turn as f64)?;
        }
        let told = asked.told_of_all();
        writeln!(out, "{}", told.behind())?;
        Ok(told.outcome(Outcome::of(forward + backward + skipped > 0)))
    },
};

/// The lines that are asked for, and the steps of a turn where a card says them. The only encoder of a card need not be named.
fn asked_for(args: &Args, asked: &Asked) -> Result<(u8, u8, Option<usize>), Failure> {
    ["--a", "--b"].iter().try_for_each(|line| exclude(args, "--encoder", line))?;
    let unit = asked.reader.unit();
    let known = match args.text("--encoder")? {
        Some(name) => {
            let known = asked.encoders.of(name);
            Some(known.ok_or_else(|| bad(format!("--encoder {name}: no encoder has that name")))?)
        }
        None if args.flag("--a") || args.flag("--b") => None,
        None => asked.encoders.iter().next().filter(|_| asked.encoders.iter().count() == 1),
    };
    if let Some(known) = known {
        if let Some(lacks) = encoders::lacks(known.a.into(), known.b.into(), unit) {
            return Err(bad(format!("--encoder {}: the capture {lacks}", known.name)));
        }
        return Ok((known.a, known.b, Some(known.steps)));
    }
    let line = |name| args.read_value(name, |text| read_line(text, unit, &asked.names));
    let a = needed(line("--a")?, "--a LINE")?;
    Ok((a, needed(line("--b")?, "--b LINE")?, None))
}
