//! The lists of answers of the unchanged Rust: written, checked, and the Rust held
//! against document 01 on random inputs. See ../README.md.

mod asker;
mod beside;
mod bursts;
mod check;
mod digest;
mod document;
mod encoders;
mod feed;
mod file_memory;
mod filed;
mod files;
mod groups;
mod line;
mod list;
mod meeting;
mod mill;
mod model;
mod node;
mod noise;
mod op;
mod port;
mod rust;
mod salvages;
mod shapes;
mod side;
mod spoiled;
mod stretches;
mod unfinished;
mod unknowns;
mod write;

use std::process::ExitCode;

fn main() -> ExitCode {
    if !asker::Asker::new().checks_overflow() {
        eprintln!("built without overflow checks: use --profile answers");
        return ExitCode::FAILURE;
    }
    let arguments: Vec<String> = std::env::args().skip(1).collect();
    let arguments: Vec<&str> = arguments.iter().map(String::as_str).collect();
    let number = |text: &str| text.parse::<u64>().ok();
    let good = match arguments[..] {
        ["write"] => write::write(),
        ["check"] => check::check(),
        ["model", "--seconds", n] if number(n).is_some() => model::run(number(n).unwrap(), 1),
        ["model", "--seconds", n, "--seed", s] if number(n).is_some() && number(s).is_some() => {
            model::run(number(n).unwrap(), number(s).unwrap())
        }
        ["port", "--seconds", n] if number(n).is_some() => beside::run(number(n).unwrap(), 1),
        ["port", "--seconds", n, "--seed", s] if number(n).is_some() && number(s).is_some() => {
            beside::run(number(n).unwrap(), number(s).unwrap())
        }
        _ => {
            eprintln!("write | check | model --seconds N [--seed N] | port --seconds N [--seed N]");
            false
        }
    };
    if good {
        ExitCode::SUCCESS
    } else {
        ExitCode::FAILURE
    }
}
