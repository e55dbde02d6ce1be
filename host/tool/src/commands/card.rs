//! A capture's card, with its encoders' totals.

use super::Command;
use crate::args::{Args, Takes};
use crate::card::Card;
use crate::encoders::{self, Named};
use crate::failure::{bad, Failure, Outcome};
use crate::given::{beside, Given};
use crate::names;
use crate::output::Output;
use crate::{lines, told::Told};
use capture::{Capture, Encoder, Lines};
use std::io::Write;

pub const COMMAND: Command = Command {
    name: "card",
    about: "Prints a capture's card, what is known of it beside its samples, and keeps it",
    help: include_str!("../help/card.txt"),
    options: &[
        ("--name", Takes::Values),
        ("--encoder", Takes::Values),
        ("--rate", Takes::Value),
        ("--stretches", Takes::Value),
        ("--write", Takes::Nothing),
        ("--grant", Takes::Refused("a card tells of all lines, and is not given to mills")),
    ],
    reads: true,
    run,
};

fn run(args: &Args, out: &mut dyn Write) -> Result<Outcome, Failure> {
    let given = Given::to_be_tied("card", args)?;
    let asked = given.asked(args)?;
    let Given { capture, card, tie, .. } = &given;
    let unknown = asked.stretches().to_vec();
    let told = Told::of(unknown.iter().map(|stretch| stretch.count).sum());
    let card = Card { unknown, comments: card.comments.clone(), ..options(args, card)?.over(card) };
    let tie = tie.as_ref().ok_or_else(|| bad("no sum was made"))?;
    let totals = totals(capture, &card, told)?;
    if args.flag("--write") {
        let file = args.file().filter(|&file| file != "-").and_then(beside);
        let path = match (args.path("--card"), file) {
            (Some(path), _) if path != "-" => path.to_os_string(),
            (None, Some(path)) => path,
            _ => return Err(bad("--write: there is no card to keep; name a file with --card")),
        };
        Output::open(&path)?.write(out, |to| card.write(to, tie, &totals))?;
    }
    card.write(out, tie, &totals)?;
    let rests = !card.encoders.is_empty();
    Ok(if rests { told.outcome(Outcome::Yes) } else { Outcome::Yes })
}

/// What the options --name and --encoder say; lines of an encoder may have names that are known.
fn options(args: &Args, known: &Card) -> Result<Card, Failure> {
    let mut card = Card::default();
    for text in args.texts("--name") {
        let text = text?;
        let named = lines::read_name(text, Lines::BITS as usize / 8);
        let named = named.and_then(|(line, name)| Ok((line, names::read(&name)?)));
        let (line, name) = named.map_err(|what| bad(format!("--name {text}: {what}")))?;
        card.names.put(line, name);
    }
    let names = card.clone().over(known).names;
    for text in args.texts("--encoder") {
        let text = text?;
        let encoder = encoders::read(text, &names);
        card.encoders.put(encoder.map_err(|what| bad(format!("--encoder {text}: {what}")))?);
    }
    Ok(card)
}

/// What stands behind each encoder's name.
fn totals(capture: &Capture, card: &Card, told: Told) -> Result<Vec<(String, String)>, Failure> {
    let total = |encoder: &Named| {
        let total = total(capture, encoder.a.into(), encoder.b.into())?;
        Ok((encoder.name.clone(), total + &told.behind()))
    };
    card.encoders.iter().map(total).collect()
}

/// An encoder's position at the end and its skips, or which of its lines the capture lacks.
pub fn total(capture: &Capture, a: usize, b: usize) -> Result<String, Failure> {
    if let Some(lacks) = encoders::lacks(a, b, capture.unit()) {
        return Ok(lacks);
    }
    let Encoder { position, skipped, .. } = capture.encoder(a, b)?;
    Ok(format!("{position} skipped={skipped}"))
}
