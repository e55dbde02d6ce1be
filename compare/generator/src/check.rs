//! Holds the stored lists against the Rust.

use crate::asker::Asker;
use crate::line::Numbers;
use crate::op::Op;
use crate::write::{file_name, lists, path};

/// Differences shown of each file.
const SHOWN: usize = 10;

pub fn check() -> bool {
    let mut good = true;
    for made in lists() {
        let name = file_name(made.name);
        let stored = match std::fs::read_to_string(path(made.name)) {
            Ok(stored) => stored,
            Err(error) => {
                println!("{name}: {error}");
                good = false;
                continue;
            }
        };
        let mut wrong = replay(&stored);
        if stored != made.text {
            wrong.push("not what `write` writes".into());
        }
        // Also among the questions that are asked and not written.
        if !made.differences.is_empty() {
            wrong.push(format!("the Rust differs from document 01:\n{}", made.differences[0]));
        }
        for what in wrong.iter().take(SHOWN) {
            println!("{name}: {what}");
        }
        good &= wrong.is_empty();
        println!("{name}: {} lines, {} wrong", stored.lines().count(), wrong.len());
    }
    good
}

/// Reads the lines alone and asks each of them again.
fn replay(stored: &str) -> Vec<String> {
    let mut asker = Asker::new();
    let mut wrong = Vec::new();
    for (number, line) in stored.lines().enumerate() {
        let number = number + 1;
        match Op::read(&mut Numbers::new(line)) {
            None => wrong.push(format!("line {number} is none: {line}")),
            Some(op) => {
                let right = asker.ask(&op);
                if right != line {
                    wrong.push(format!("line {number} is {line} and should be {right}"));
                }
            }
        }
    }
    wrong
}
