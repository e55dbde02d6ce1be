//! A capture's numbers, printed.

use crate::failure::{Failure, Outcome};
use crate::given::Asked;
use crate::lines;
use crate::reader::Reader;
use crate::stretches::known_node;
use capture::Lines;
use std::io::Write;

/// Prints them, one a line, as far as the reader may know them. Behind a line stands its name, where a card has one.
pub fn print(asked: &Asked, out: &mut dyn Write) -> Result<Outcome, Failure> {
    let Asked { reader, rate, names, .. } = asked;
    let (first, end) = (reader.first(), reader.end());
    let samples = end - first;
    match reader {
        Reader::Service(_) => {
            writeln!(out, "unit {}", reader.unit())?;
            writeln!(out, "samples {samples}")?;
        }
        Reader::Mill(mill) => {
            writeln!(out, "grant {}", lines::written(mill.grant(), names))?;
            writeln!(out, "samples {samples}")?;
            writeln!(out, "first {first}")?;
            writeln!(out, "end {end}")?;
        }
    }
    writeln!(out, "mark {}", or_dash(reader.mark()))?;
    writeln!(out, "rate {}", or_dash(*rate))?;
    let seconds = rate.map(|rate| samples as f64 / rate as f64);
    writeln!(out, "seconds {}", or_dash(seconds))?;
    writeln!(out, "changing {}", lines::written(changing(asked)?, names))?;
    let told = asked.told_of_all();
    told.end(out)?;
    Ok(told.outcome(Outcome::Yes))
}

/// The lines that change somewhere. What is stored for unknown samples does not count, and a line that is another behind a
/// stretch than before it has changed.
fn changing(asked: &Asked) -> Result<Lines, Failure> {
    let reader = &asked.reader;
    let Reader::Service(capture) = reader else {
        let node = reader.summary(reader.first(), reader.end())?;
        return Ok(node.map_or(0, |node| node.toggles));
    };
    let node = known_node(capture, asked.stretches(), 0, capture.len());
    Ok(node.map_or(0, |node| node.toggles))
}

/// The number, or a dash where there is none.
pub fn or_dash<T: ToString>(number: Option<T>) -> String {
    number.map_or_else(|| "-".into(), |number| number.to_string())
}
