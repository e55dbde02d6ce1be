//! A capture's card: what staff know of it beside its samples. It is text, one fact a line.

use crate::encoders::{self, Encoders};
use crate::failure::{bad, Failure};
use crate::lines::read_line;
use crate::names::{self, Names};
use crate::number;
use crate::source::Source;
use capture::{Capture, Lines, Stretch};
use std::io::{self, BufRead, BufReader, Read, Write};
use std::str;

/// What is added to a file's name for its card.
pub const ENDING: &str = ".card";

/// The card of a folder, which holds what all its captures share.
pub const FOLDER: &str = "frame.card";

/// The longest line that is read. What has no lines, such as a capture, is not read to its end.
const LONGEST: u64 = 1000;

/// The facts of a card.
#[derive(Clone, Debug, Default, PartialEq, Eq)]
pub struct Card {
    /// Lines that begin with #.
    pub comments: Vec<String>,
    /// Samples a second.
    pub rate: Option<u64>,
    pub names: Names,
    pub encoders: Encoders,
    /// The unknown stretches, in order.
    pub unknown: Vec<Stretch>,
}

/// What ties a card to its file.
#[derive(Clone, Copy, Debug, PartialEq, Eq)]
pub struct Tie {
    pub unit: usize,
    pub len: usize,
    pub mark: Option<usize>,
    /// The number over all bytes of the file ([`crate::sum`]).
    pub sum: u64,
}

impl Tie {
    pub fn new(capture: &Capture, sum: u64) -> Tie {
        Tie { unit: capture.unit(), len: capture.len(), mark: capture.mark(), sum }
    }
}

impl Card {
    /// This, and what another says where this one does not. Comments and unknown stretches are of one file, and stay there.
    pub fn over(mut self, other: &Card) -> Card {
        self.rate = self.rate.or(other.rate);
        for (line, name) in other.names.iter() {
            if self.names.of(line).is_none() {
                self.names.put(line, name.into());
            }
        }
        for encoder in other.encoders.iter() {
            if self.encoders.of(&encoder.name).is_none() {
                self.encoders.put(encoder.clone());
            }
        }
        self
    }

    /// Writes it, tied to a file, with the totals of encoders by their names.
    pub fn write(
        &self,
        to: &mut dyn Write,
        tie: &Tie,
        totals: &[(String, String)],
    ) -> io::Result<()> {
        for comment in &self.comments {
            writeln!(to, "{comment}")?;
        }
        writeln!(to, "unit {}", tie.unit)?;
        writeln!(to, "length {}", tie.len)?;
        writeln!(to, "mark {}", crate::numbers::or_dash(tie.mark))?;
        writeln!(to, "sum {}", hex(tie.sum))?;
        if let Some(rate) = self.rate {
            writeln!(to, "rate {rate}")?;
        }
        for (line, name) in self.names.iter() {
            writeln!(to, "line {line} {name}")?;
        }
        for encoder in self.encoders.iter() {
            writeln!(to, "encoder {}", encoder.written())?;
        }
        for (name, total) in totals {
            writeln!(to, "total {name} {total}")?;
        }
        for Stretch { first, count } in &self.unknown {
            writeln!(to, "unknown {first} {count}")?;
        }
        Ok(())
    }
}

fn hex(sum: u64) -> String {
    format!("{sum:#018x}")
}

/// A fact, and the line that it stands in.
#[derive(Clone, Copy, Debug)]
struct At<T> {
    line: usize,
    value: T,
}

/// A card that was read, of whatever file it is.
#[derive(Debug)]
pub struct Paper {
    /// Its own file.
    name: String,
    facts: Card,
    rate: Option<At<()>>,
    unit: Option<At<usize>>,
    length: Option<At<usize>>,
    mark: Option<At<Option<usize>>>,
    sum: Option<At<u64>>,
    /// The line of each unknown stretch.
    unknown: Vec<usize>,
    /// The first line that speaks of one capture alone.
    alone: Option<usize>,
}

impl Paper {
    pub fn read(source: Source) -> Result<Paper, Failure> {
        let mut paper = Paper {
            name: source.name.clone(),
            facts: Card::default(),
            rate: None,
            unit: None,
            length: None,
            mark: None,
            sum: None,
            unknown: vec![],
            alone: None,
        };
        let mut source = BufReader::new(source);
        for line in 1.. {
            let mut bytes = Vec::new();
            let read = source.by_ref().take(LONGEST).read_until(b'\n', &mut bytes);
            if read.map_err(|error| paper.bad(&error.to_string()))? == 0 {
                break;
            }
            paper.line(line, &bytes).map_err(|what| paper.wrong(line, &what))?;
        }
        Ok(paper)
    }

    /// Takes the fact of a line, if it has one. What is wrong is said without the line's text, where that may be anything.
    fn line(&mut self, line: usize, bytes: &[u8]) -> Result<(), String> {
        if bytes.len() as u64 == LONGEST && !bytes.ends_with(b"\n") {
            return Err(format!("it has {LONGEST} bytes or more"));
        }
        let text = str::from_utf8(bytes).map_err(|_| "not UTF-8")?.trim();
        if text.is_empty() {
            return Ok(());
        }
        if text.starts_with('#') {
            self.facts.comments.push(text.into());
            return Ok(());
        }
        let (key, rest) = text.split_once(char::is_whitespace).unwrap_or((text, ""));
        let rest = rest.trim();
        if !["rate", "line", "encoder"].contains(&key) {
            self.alone.get_or_insert(line);
        }
        match key {
            "rate" => {
                once(&mut self.rate, line, ())?;
                self.facts.rate = Some(number::rate(rest)?);
            }
            "line" => self.named(rest)?,
            "encoder" => {
                let encoder = encoders::read_fact(rest)?;
                if self.facts.encoders.of(&encoder.name).is_some() {
                    return Err(format!("a second encoder '{}'", encoder.name));
                }
                self.facts.encoders.put(encoder);
            }
            "unknown" => {
                self.facts.unknown.push(read_stretch(rest)?);
                self.unknown.push(line);
            }
            // What it says is made anew wherever it is shown.
            "total" => {}
            "unit" => once(&mut self.unit, line, number::unit(rest)?)?,
            "length" => once(&mut self.length, line, number::whole(rest)?)?,
            "mark" => {
                let mark = if rest == "-" { None } else { Some(number::whole(rest)?) };
                once(&mut self.mark, line, mark)?;
            }
            "sum" => once(&mut self.sum, line, read_sum(rest)?)?,
            _ => return Err(FACTS.into()),
        }
        Ok(())
    }

    /// A line's number and its name.
    fn named(&mut self, text: &str) -> Result<(), String> {
        let form = "a line is its number and its name, as in line 11 turner A";
        let (line, name) = text.split_once(char::is_whitespace).ok_or(form)?;
        let line = read_line(line, Lines::BITS as usize / 8, &Names::default())?;
        if self.facts.names.of(line).is_some() {
            return Err(format!("a second name of line {line}"));
        }
        self.facts.names.put(line, names::read(name)?);
        Ok(())
    }

    /// What a folder's captures share.
    pub fn shared(self) -> Result<Card, Failure> {
        match self.alone {
            None => Ok(self.facts),
            Some(line) => {
                let what = "it speaks of one capture, and this card is of several";
                Err(self.wrong(line, what))
            }
        }
    }

    /// Whether nothing in it says which file it belongs to.
    pub fn is_untied(&self) -> bool {
        self.unit.is_none() && self.length.is_none() && self.mark.is_none() && self.sum.is_none()
    }

    /// Its facts, if it is the card of the capture that is tied so. A damaged file keeps no sum: `None` there.
    pub fn of(self, capture: &Capture, sum: Option<u64>) -> Result<Card, Failure> {
        self.belongs(capture, sum)?;
        self.facts_of(capture)
    }

    /// Its facts, whether it is tied or not: those of a card that a person began.
    pub fn begun(self, capture: &Capture, sum: u64) -> Result<Card, Failure> {
        if !self.is_untied() {
            self.belongs(capture, Some(sum))?;
        }
        self.facts_of(capture)
    }

    fn belongs(&self, capture: &Capture, sum: Option<u64>) -> Result<(), Failure> {
        let missing = |what| {
            let tie = "'logic-capture card --write FILE' ties it";
            self.bad(&format!("no '{what}': it does not say which file it belongs to; {tie}"))
        };
        let unit = self.unit.ok_or_else(|| missing("unit"))?;
        let length = self.length.ok_or_else(|| missing("length"))?;
        let mark = self.mark.ok_or_else(|| missing("mark"))?;
        let own = self.sum.ok_or_else(|| missing("sum"))?;
        let other = |line, what: &str, has: String| {
            self.wrong(
                line,
                &format!("{what}, and the file has {has}: it is the card of another file"),
            )
        };
        if unit.value != capture.unit() {
            let has = capture.unit().to_string();
            return Err(other(unit.line, &format!("unit {}", unit.value), has));
        }
        if length.value != capture.len() {
            let has = capture.len().to_string();
            return Err(other(length.line, &format!("length {}", length.value), has));
        }
        if mark.value != capture.mark() {
            let [own, has] = [mark.value, capture.mark()].map(crate::numbers::or_dash);
            return Err(other(mark.line, &format!("mark {own}"), has));
        }
        match sum {
            Some(sum) if sum != own.value => {
                Err(other(own.line, &format!("sum {}", hex(own.value)), hex(sum)))
            }
            _ => Ok(()),
        }
    }

    /// Its facts, if the capture can have its unknown stretches. The first that it cannot is named by its line.
    fn facts_of(self, capture: &Capture) -> Result<Card, Failure> {
        // The library says which lists it takes; behind the end there is nothing to search.
        let refused = |count: usize| {
            let searched = capture.next_certain(&self.facts.unknown[..count], 0, usize::MAX);
            searched.err()
        };
        let Some(refusal) = refused(self.unknown.len()) else { return Ok(self.facts) };
        // A list goes on being refused, whatever stands behind what it is refused for.
        let counts: Vec<usize> = (1..=self.unknown.len()).collect();
        let first = counts.partition_point(|&count| refused(count).is_none());
        Err(self.wrong(self.unknown[first], &refusal.to_string()))
    }

    fn wrong(&self, line: usize, what: &str) -> Failure {
        self.bad(&format!("line {line}: {what}"))
    }

    fn bad(&self, what: &str) -> Failure {
        bad(format!("{}: {what}", self.name))
    }
}

const FACTS: &str =
    "no fact of a card: rate, line, encoder, unknown, total, unit, length, mark or sum";

/// Takes a fact that stands once.
fn once<T>(fact: &mut Option<At<T>>, line: usize, value: T) -> Result<(), String> {
    match fact {
        Some(first) => Err(format!("the same fact as in line {}", first.line)),
        None => {
            *fact = Some(At { line, value });
            Ok(())
        }
    }
}

fn read_stretch(text: &str) -> Result<Stretch, String> {
    let words: Vec<&str> = text.split_whitespace().collect();
    match words[..] {
        [first, count] => {
            Ok(Stretch { first: number::whole(first)?, count: number::whole(count)? })
        }
        _ => Err("a stretch is its first place and its count, as in unknown 4500 500".into()),
    }
}

fn read_sum(text: &str) -> Result<u64, String> {
    let digits = text.strip_prefix("0x").filter(|digits| digits.len() == 16);
    let digits = digits.filter(|digits| digits.bytes().all(|byte| byte.is_ascii_hexdigit()));
    let sum = digits.and_then(|digits| u64::from_str_radix(digits, 16).ok());
    sum.ok_or_else(|| "a sum is 0x and sixteen digits".into())
}
