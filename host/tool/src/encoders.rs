//! Encoders with names.

use crate::lines::read_line;
use crate::names::{self, Names};
use crate::number;
use capture::{Capture, Lines};

/// An encoder: its name, its lines A and B, and the steps of a turn.
#[derive(Clone, Debug, PartialEq, Eq)]
pub struct Named {
    pub name: String,
    pub a: u8,
    pub b: u8,
    pub steps: usize,
}

/// Encoders in the order in which they came, each name once.
#[derive(Clone, Debug, Default, PartialEq, Eq)]
pub struct Encoders(Vec<Named>);

/// Lines are those of the widest samples: which of them a capture has is another question.
const UNIT: usize = Lines::BITS as usize / 8;

/// An encoder as an option gives it, `turner=11,12,400`; its lines may have names.
pub fn read(text: &str, names: &Names) -> Result<Named, String> {
    let form =
        "an encoder is its name, its two lines and the steps of a turn, as in turner=11,12,400";
    let (name, rest) = text.split_once('=').ok_or(form)?;
    let parts: Vec<&str> = rest.split(',').collect();
    let [a, b, steps] = parts[..] else { return Err(form.into()) };
    named(name, [a, b], steps, names)
}

/// One as a card has it, `turner 11 12 400`.
pub fn read_fact(text: &str) -> Result<Named, String> {
    let form =
        "an encoder is its name, its two lines and the steps of a turn, as in turner 11 12 400";
    let mut words = text.rsplitn(4, char::is_whitespace);
    let [steps, b, a, name] = std::array::from_fn(|_| words.next());
    let (Some(steps), Some(b), Some(a), Some(name)) = (steps, b, a, name) else {
        return Err(form.into());
    };
    named(name, [a, b], steps, &Names::default())
}

fn named(name: &str, lines: [&str; 2], steps: &str, names: &Names) -> Result<Named, String> {
    let name = names::read(name)?;
    let [a, b] = lines.map(|text| read_line(text, UNIT, names));
    let (a, b) = (a?, b?);
    // Which two lines an encoder can have is the library's to say, whatever the capture is.
    let asked = Capture::start(8, 1).and_then(|capture| capture.encoder(a.into(), b.into()));
    asked.map_err(|refusal| refusal.to_string())?;
    Ok(Named { name, a, b, steps: read_steps(steps)? })
}

/// The steps of a turn.
pub fn read_steps(text: &str) -> Result<usize, String> {
    match number::whole(text)? {
        0 => Err("a turn has 1 step or more".into()),
        steps => Ok(steps),
    }
}

impl Named {
    /// As a card has it.
    pub fn written(&self) -> String {
        let Named { name, a, b, steps } = self;
        format!("{name} {a} {b} {steps}")
    }
}

/// Which of an encoder's lines samples of a unit lack, as a word; none where it has both. Such a line is 0 throughout, and an
/// encoder on it seems to have come home.
pub fn lacks(a: usize, b: usize, unit: usize) -> Option<String> {
    let lines: Vec<String> =
        [a, b].into_iter().filter(|&line| line >= 8 * unit).map(|line| line.to_string()).collect();
    (!lines.is_empty()).then(|| format!("lacks:{}", lines.join(",")))
}

impl Encoders {
    pub fn is_empty(&self) -> bool {
        self.0.is_empty()
    }

    pub fn iter(&self) -> impl Iterator<Item = &Named> {
        self.0.iter()
    }

    pub fn of(&self, name: &str) -> Option<&Named> {
        self.iter().find(|encoder| encoder.name == name)
    }

    /// Adds one, in place of the one with its name.
    pub fn put(&mut self, encoder: Named) {
        match self.0.iter_mut().find(|other| other.name == encoder.name) {
            Some(other) => *other = encoder,
            None => self.0.push(encoder),
        }
    }

    /// Those whose two lines are among these.
    pub fn within(&self, mask: Lines) -> Encoders {
        let has = |line: u8| mask >> line & 1 == 1;
        Encoders(self.iter().filter(|encoder| has(encoder.a) && has(encoder.b)).cloned().collect())
    }
}

#[cfg(test)]
mod tests {
    use super::*;

    fn turner() -> Named {
        Named { name: "turner".into(), a: 11, b: 12, steps: 400 }
    }

    #[test]
    fn both_forms() {
        let mut names = Names::default();
        names.put(12, "turner B".into());
        for text in ["turner=11,12,400", "turner=11,turner B,400"] {
            assert_eq!(read(text, &names), Ok(turner()));
        }
        assert_eq!(read_fact("turner 11 12 400"), Ok(turner()));
        assert_eq!(read_fact(&turner().written()), Ok(turner()));
        assert_eq!(read_fact("log turner 0 1 4").unwrap().name, "log turner");
    }

    #[test]
    fn what_is_wrong_is_said() {
        let none = Names::default();
        let lines = "refused, 14: an encoder's two lines are 0 to 15, and not the same";
        for (text, what) in [
            ("11,12", "an encoder is its name, its two lines and the steps of a turn, as in turner=11,12,400"),
            ("turner=11,12", "an encoder is its name, its two lines and the steps of a turn, as in turner=11,12,400"),
            ("turner=11,12,0", "a turn has 1 step or more"),
            ("turner=11,12,x", "not a whole number"),
            ("turner=11,11,4", lines),
            ("turner=11,16,4", "'16' is no line: lines are 0 to 15"),
            ("3=11,12,4", "'3' is no name: it reads as lines"),
            ("=11,12,4", "a name is missing"),
        ] {
            assert_eq!(read(text, &none).unwrap_err(), what, "{text}");
        }
        for text in ["", "turner", "turner 11 12", "11 12 400"] {
            assert!(read_fact(text).unwrap_err().ends_with("as in turner 11 12 400"), "{text}");
        }
        assert_eq!(read_fact("turner 11 11 400").unwrap_err(), lines);
    }

    #[test]
    fn lines_that_a_unit_lacks() {
        assert_eq!(lacks(11, 12, 2), None);
        assert_eq!(lacks(11, 12, 1), Some("lacks:11,12".into()));
        assert_eq!(lacks(7, 8, 1), Some("lacks:8".into()));
        assert_eq!(lacks(0, 7, 1), None);
    }
}
