//! The command line tool `logic-capture`: records, searches and draws captures of digital lines.

mod args;
mod bars;
mod card;
mod commands;
mod encoders;
mod failure;
mod file;
mod frame;
mod given;
mod interrupt;
mod lines;
mod names;
mod number;
mod numbers;
mod output;
mod parts;
mod place;
#[cfg(test)]
#[path = "../../capture/tests/plain/mod.rs"]
mod plain;
mod progress;
mod reader;
mod search;
mod source;
mod stretches;
mod sum;
mod svg;
mod text;
mod time;
mod told;
mod trigger;
mod value;
mod wave;
mod wish;

use args::Args;
use commands::{Command, COMMANDS};
use failure::{bad, Failure, Outcome, BAD};
use std::env;
use std::ffi::OsString;
use std::io::{self, BufWriter, Write};
use std::process::ExitCode;

fn main() -> ExitCode {
    let words: Vec<OsString> = env::args_os().skip(1).collect();
    let mut out = BufWriter::new(io::stdout().lock());
    let (name, result) = run(&words, &mut out);
    let result = result.and_then(|outcome| {
        out.flush()?;
        Ok(outcome)
    });
    match result {
        Ok(outcome) => ExitCode::from(outcome.status()),
        Err(Failure::Unread) => ExitCode::SUCCESS,
        Err(Failure::Bad(what)) => {
            // What was answered before the failure stands before its line. Nobody may read it: that is no failure
            // more.
            let _ = out.flush();
            note(name, &what);
            ExitCode::from(BAD)
        }
    }
}

/// Says something to the person, beside the answers. Nobody may be there to read it.
fn note(command: &str, what: &str) {
    let space = if command.is_empty() { "" } else { " " };
    let _ = writeln!(io::stderr(), "logic-capture{space}{command}: {what}");
}

/// Runs the command that the words ask for, and says which it is.
fn run(words: &[OsString], out: &mut dyn Write) -> (&'static str, Result<Outcome, Failure>) {
    let Some(first) = words.first() else {
        return ("", Err(bad("which command? 'logic-capture --help' lists them")));
    };
    let first = first.to_string_lossy();
    match first.as_ref() {
        "--help" | "-h" | "help" => {
            return match words.get(1).map(|word| word.to_string_lossy()) {
                None => ("", overview(out)),
                Some(name) => match command(&name) {
                    Some(command) => (command.name, help(command, out)),
                    None => ("", Err(no_command(&name))),
                },
            }
        }
        "--version" | "-V" => return ("", version(out)),
        _ => {}
    }
    match command(&first) {
        Some(command) => (command.name, ask(command, &words[1..], out)),
        None => ("", Err(no_command(&first))),
    }
}

fn command(name: &str) -> Option<&'static Command> {
    COMMANDS.iter().find(|command| command.name == name)
}

fn no_command(name: &str) -> Failure {
    bad(format!("there is no command '{name}'; 'logic-capture --help' lists them"))
}

fn ask(command: &Command, words: &[OsString], out: &mut dyn Write) -> Result<Outcome, Failure> {
    match Args::read(command.options(), words)? {
        Some(args) => (command.run)(&args, out),
        None => help(command, out),
    }
}

fn overview(out: &mut dyn Write) -> Result<Outcome, Failure> {
    writeln!(
        out,
        "Records, searches and draws captures of digital lines.\n\nlogic-capture COMMAND ..\n"
    )?;
    // The text below tells of cards.
    for command in COMMANDS.iter().filter(|command| command.name != "card") {
        writeln!(out, "  {:<8} {}", command.name, command.about)?;
    }
    out.write_all(include_bytes!("help/overview.txt"))?;
    Ok(Outcome::Yes)
}

fn help(command: &Command, out: &mut dyn Write) -> Result<Outcome, Failure> {
    writeln!(out, "{}.\n", command.about)?;
    out.write_all(command.help().as_bytes())?;
    Ok(Outcome::Yes)
}

fn version(out: &mut dyn Write) -> Result<Outcome, Failure> {
    writeln!(out, "logic-capture {}", env!("CARGO_PKG_VERSION"))?;
    Ok(Outcome::Yes)
}
