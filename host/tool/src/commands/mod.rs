//! The commands.

mod burst;
mod bursts;
mod card;
mod changes;
mod check;
mod demo;
mod density;
mod encoder;
mod info;
mod next;
mod prev;
mod record;
mod render;
mod salvage;
mod samples;
mod shelf;
mod summary;

use crate::args::{Args, Known};
use crate::failure::{bad, Failure, Outcome};
use crate::given::{self, Asked};
use crate::lines;
use crate::number;
use crate::told::Told;
use crate::wave::MOST_COLUMNS;
use capture::Counted;
use std::io::Write;

pub struct Command {
    pub name: &'static str,
    /// What it does, in a line.
    pub about: &'static str,
    /// The rest of its help.
    pub help: &'static str,
    pub options: &'static [Known],
    /// Whether it reads a capture, and takes the options of that too ([`given::OPTIONS`]).
    pub reads: bool,
    pub run: fn(&Args, &mut dyn Write) -> Result<Outcome, Failure>,
}

pub const COMMANDS: [Command; 17] = [
    demo::COMMAND,
    record::COMMAND,
    info::COMMAND,
    card::COMMAND,
    shelf::COMMAND,
    salvage::COMMAND,
    next::COMMAND,
    prev::COMMAND,
    changes::COMMAND,
    density::COMMAND,
    burst::COMMAND,
    bursts::COMMAND,
    encoder::COMMAND,
    summary::COMMAND,
    samples::COMMAND,
    render::COMMAND,
    check::COMMAND,
];

impl Command {
    /// Whether an option is one of its own, or of reading.
    pub fn options(&self) -> impl Iterator<Item = &'static Known> {
        let reading = if self.reads { &given::OPTIONS[..] } else { &[] };
        self.options.iter().chain(reading)
    }

    /// The rest of its help, with what is told of every command that reads a capture in its place.
    pub fn help(&self) -> String {
        self.help.replace("{reading}\n", include_str!("../help/reading.txt"))
    }
}

/// The lines that --lines chooses; without it, and for `all`, those that the reader sees.
fn chosen_lines(args: &Args, asked: &Asked) -> Result<Vec<u8>, Failure> {
    let reader = &asked.reader;
    let chosen = args.read_value("--lines", |text| {
        if text == "all" {
            return Ok(reader.lines());
        }
        let chosen = lines::read(text, reader.unit(), &asked.names)?;
        reader.may_see(lines::mask(&chosen)).map_err(|refusal| refusal.to_string())?;
        Ok(chosen)
    })?;
    Ok(chosen.unwrap_or_else(|| reader.lines()))
}

/// Prints what a search found, or `none` where more is to be said: with --read the nodes that it read, and how many samples
/// on its way are unknown.
fn print_found(
    args: &Args,
    Counted { found, read }: Counted<String>,
    told: Told,
    out: &mut dyn Write,
) -> Result<Outcome, Failure> {
    let outcome = Outcome::of(found.is_some());
    let read = if args.flag("--read") { format!(" {read}") } else { String::new() };
    let more = read + &told.behind();
    if found.is_some() || !more.is_empty() {
        writeln!(out, "{}{more}", found.as_deref().unwrap_or("none"))?;
    }
    Ok(told.outcome(outcome))
}

/// The rate, where an option asks for times.
fn needed_rate(args: &Args, option: &str, rate: Option<u64>) -> Result<Option<u64>, Failure> {
    match (args.flag(option), rate) {
        (true, None) => Err(bad(format!("{option} needs --rate HZ, or a card that has a rate"))),
        (true, rate) => Ok(rate),
        (false, _) => Ok(None),
    }
}

/// Something that a command cannot do without.
fn needed<T>(value: Option<T>, what: &str) -> Result<T, Failure> {
    value.ok_or_else(|| bad(format!("{what} is missing; see --help")))
}

/// Options that are of no use without another.
pub fn only_with(args: &Args, owner: &str, names: &[&str]) -> Result<(), Failure> {
    match names.iter().find(|name| args.flag(name) && !args.flag(owner)) {
        Some(name) => Err(bad(format!("{name} goes with {owner}"))),
        None => Ok(()),
    }
}

pub fn exclude(args: &Args, one: &str, other: &str) -> Result<(), Failure> {
    if args.flag(one) && args.flag(other) {
        return Err(bad(format!("{one} and {other} exclude each other")));
    }
    Ok(())
}

/// How wide a drawing is.
fn read_width(text: &str) -> Result<usize, String> {
    match number::whole(text)? {
        width @ 1..=MOST_COLUMNS => Ok(width),
        _ => Err(format!("a width is 1 to {MOST_COLUMNS}")),
    }
}

#[cfg(test)]
mod tests {
    use super::*;

    #[test]
    fn each_help_names_each_option() {
        for command in &COMMANDS {
            let help = command.help();
            for (option, _) in command.options() {
                assert!(help.contains(option), "{} {option}", command.name);
            }
            assert_eq!(command.help.contains("{reading}"), command.reads, "{}", command.name);
            assert!(help.starts_with("  logic-capture "), "{}", command.name);
            assert!(help.contains("Exit status"), "{}", command.name);
            assert!(help.lines().all(|line| line.chars().count() <= 100), "{}", command.name);
        }
    }
}
