//! The bursts of a mask and a gap that one reader finds from different places: each is held against the plain scan, and all of
//! them side by side.

use crate::asker::joined;
use crate::document::bursts::{grows, stayed_below, Found, Plain};
use crate::op::{Ask, Burst, Mill, Op};
use crate::side::Answer;

/// Who asks. A mill's places count from the mark.
#[derive(Clone, Copy)]
pub enum Reader {
    Service,
    Mill { grant: u16, mark: u64 },
}

impl Reader {
    fn burst(self, burst: Burst) -> Op {
        let Burst { mask, sample, max_gap, tolerance, budget } = burst;
        match self {
            Reader::Service => Op::Burst(burst),
            Reader::Mill { grant, mark } => {
                let sample = from_mark(sample, mark);
                let ask = Ask::Burst { mask, sample, max_gap, tolerance, budget };
                Op::Mill(Mill { grant, ask })
            }
        }
    }

    fn next(self, mask: u16, from: u64) -> Op {
        match self {
            Reader::Service => Op::Next { mask, from },
            Reader::Mill { grant, mark } => {
                Op::Mill(Mill { grant, ask: Ask::Next { mask, from: from_mark(from, mark) } })
            }
        }
    }

    /// The place of the run that a number of an answer is.
    fn place(self, number: u64) -> u64 {
        match self {
            Reader::Service => number,
            Reader::Mill { mark, .. } => number.wrapping_add(mark),
        }
    }
}

/// Far behind the last sample a mill can't name every place.
fn from_mark(place: u64, mark: u64) -> i64 {
    (place as i128 - mark as i128).min(i64::MAX as i128) as i64
}

pub struct Meeting<'a, A> {
    plain: Plain<'a>,
    mask: u16,
    max_gap: u64,
    reader: Reader,
    /// Who answers.
    ask: A,
    /// The different bursts whose jumps stayed below their budgets, each with the first question that found it.
    different: Vec<([u64; 2], Burst)>,
    pub held: Held,
}

/// What came of it.
#[derive(Default)]
pub struct Held {
    /// What is wrong; one thing is enough.
    pub fault: Option<String>,
    /// Bursts asked for, those whose jumps stayed below their budgets, and those beside one of a smaller budget.
    pub asked: u64,
    pub below: u64,
    pub larger: u64,
}

impl<A: FnMut(&Op) -> Option<Answer>> Meeting<'_, A> {
    pub fn new(changes: &[u64], mask: u16, max_gap: u64, reader: Reader, ask: A) -> Meeting<'_, A> {
        Meeting {
            plain: Plain::new(changes, max_gap),
            mask,
            max_gap,
            reader,
            ask,
            different: Vec::new(),
            held: Held::default(),
        }
    }

    /// Asks from a place with budgets that go up.
    pub fn ask(&mut self, sample: u64, tolerance: u64, budgets: &[u64]) {
        let mut before: Option<(Burst, Found)> = None;
        for &budget in budgets {
            let asked = self.question(sample, tolerance, budget);
            let Some(found) = self.found(asked) else { return };
            if let Some((smaller, small)) = before {
                self.held.larger += 1;
                if !grows(small, found) {
                    let what = format!("with a smaller budget {}", self.said(smaller, small));
                    self.differs(asked, found, &what);
                }
            }
            before = Some((asked, found));
            if let Some(burst) = found.filter(|burst| stayed_below(&asked, *burst)) {
                self.meets(asked, burst);
            }
        }
    }

    /// Holds a burst whose jumps stayed below its budget against all others of which this is so.
    fn meets(&mut self, asked: Burst, burst: [u64; 4]) {
        self.held.below += 1;
        let ends = [burst[0], burst[1]];
        if self.different.iter().any(|(other, _)| *other == ends) {
            return;
        }
        let badly = |(other, _): &&([u64; 2], Burst)| !self.plain.meet_well(ends, *other);
        if let Some(&(other, by)) = self.different.iter().find(badly) {
            let what = format!("it shares changes with {other:?} of {}", self.line(by));
            self.differs(asked, Some(burst), &what);
        }
        self.different.push((ends, asked));
    }

    /// All bursts, each from its first change, by going on behind the one before: the longest, in their order.
    pub fn list(&mut self) {
        let (mut listed, mut from) = (Vec::new(), 0);
        while let Some(place) = self.next(from) {
            let Some(found) = self.found(self.question(place, 0, u64::MAX)) else { return };
            listed.extend(found.map(|[first, last, ..]| [first, last]));
            let past = found.map_or(place, |[_, last, ..]| last);
            // Else it would go on for ever.
            if past <= from {
                break;
            }
            from = past;
        }
        if listed != self.plain.longest {
            let line = joined(&self.reader.next(self.mask, 0).numbers());
            let (max_gap, longest) = (self.max_gap, &self.plain.longest);
            self.wrong(format!(
                "{line} and on with gap {max_gap} lists {listed:?} and should {longest:?}"
            ));
        }
    }

    fn question(&self, sample: u64, tolerance: u64, budget: u64) -> Burst {
        Burst { mask: self.mask, sample, max_gap: self.max_gap, tolerance, budget }
    }

    /// The burst that is found, or that there is none, held against the plain scan. No answer where something is wrong
    /// already, where the side has none, and where it refuses, which is wrong.
    fn found(&mut self, asked: Burst) -> Option<Found> {
        if self.held.fault.is_some() {
            return None;
        }
        let answer = (self.ask)(&self.reader.burst(asked))?;
        self.held.asked += 1;
        let found = match answer.as_deref() {
            Ok(&[1, first, last, at_end, at_start]) => {
                Some([self.reader.place(first), self.reader.place(last), at_end, at_start])
            }
            Ok([0]) => None,
            other => {
                self.wrong(format!("{}: {other:?}", self.line(asked)));
                return None;
            }
        };
        if let Some(what) = self.plain.fault(&asked, found) {
            self.differs(asked, found, what);
        }
        Some(found)
    }

    fn next(&mut self, from: u64) -> Option<u64> {
        let answer = (self.ask)(&self.reader.next(self.mask, from))?;
        answer.ok()?.get(1).map(|&place| self.reader.place(place))
    }

    fn differs(&mut self, asked: Burst, found: Found, what: &str) {
        self.wrong(format!("{}: {what}", self.said(asked, found)));
    }

    fn wrong(&mut self, what: String) {
        self.held.fault.get_or_insert(what);
    }

    /// A question and its answer, at places of the run.
    fn said(&self, asked: Burst, found: Found) -> String {
        format!("{} gives {found:?}", self.line(asked))
    }

    /// The line that asks it, as a trace has it.
    fn line(&self, asked: Burst) -> String {
        joined(&self.reader.burst(asked).numbers())
    }
}

#[cfg(test)]
mod tests {
    use super::*;
    use crate::bursts::each_line;
    use crate::document::{bursts::changes, refusals::need, Document};
    use crate::list::append;
    use crate::op::Store;
    use crate::rust::Rust;
    use crate::side::Side;

    /// The Rust and the document over a capture of these samples with a mark.
    fn sides(samples: &[u16], mark: u64) -> [Box<dyn Side>; 2] {
        let (unit, channels, capacity, len) = (1, 8, 8, samples.len() as u64);
        let mut sides: [Box<dyn Side>; 2] = [Box::new(Rust::new()), Box::new(Document::default())];
        for op in [
            Op::Lend(need(unit, capacity)),
            Op::Capture { channels, capacity },
            append(channels, samples),
            Op::Record(Store { unit, capacity, len, mark: Some(mark) }),
        ] {
            sides.iter_mut().for_each(|side| drop(side.take(&op)));
        }
        sides
    }

    #[test]
    fn bursts_of_short_lines_meet_well() {
        each_line(7, |highs| {
            let samples: Vec<u16> = highs.iter().map(|&high| high as u16).collect();
            let (changes, len) = (changes(&samples, 1), samples.len() as u64);
            let mark = len / 2;
            for mut side in sides(&samples, mark) {
                for reader in [Reader::Service, Reader::Mill { grant: 1, mark }] {
                    for max_gap in 0..6 {
                        let ask = |op: &Op| side.take(op);
                        let mut meeting = Meeting::new(&changes, 1, max_gap, reader, ask);
                        for place in 0..len + 2 {
                            for tolerance in 0..3 {
                                meeting.ask(place, tolerance, &[0, 1, 2, u64::MAX]);
                            }
                        }
                        meeting.list();
                        assert_eq!(meeting.held.fault, None);
                        assert!(meeting.held.asked >= 12 * (len + 2));
                    }
                }
            }
        });
    }

    /// What one finds with gap 2 where a line changes at 1, 2 and so on, at each of some samples.
    fn finds(side: &mut dyn Side, count: u64, asked: [u64; 3]) -> Found {
        let changes: Vec<u64> = (1..=count).collect();
        let ask = |op: &Op| side.take(op);
        let mut meeting = Meeting::new(&changes, 1, 2, Reader::Service, ask);
        let [sample, tolerance, budget] = asked;
        let found = meeting.found(meeting.question(sample, tolerance, budget));
        assert_eq!(meeting.held.fault, None);
        found.expect("it is no refusal")
    }

    /// Each of the four conditions is needed: with jumps at one end of one burst that are as many as its budget, and fewer
    /// at the three others, two bursts share changes and are not the same.
    #[test]
    fn jumps_at_each_end_have_to_stay_below() {
        let changes = [1, 2, 3, 4];
        let plain = Plain::new(&changes, 2);
        for mut side in sides(&[0, 1, 0, 1, 0], 0) {
            let whole = finds(&mut *side, 4, [2, 0, 2]).unwrap();
            assert_eq!(whole, [1, 4, 1, 1]);
            let at_end = finds(&mut *side, 4, [1, 0, 1]).unwrap();
            assert_eq!(at_end, [1, 3, 1, 0]);
            let at_start = finds(&mut *side, 4, [3, 0, 1]).unwrap();
            assert_eq!(at_start, [2, 4, 0, 1]);
            for cut in [at_end, at_start] {
                let [a, b] = [whole, cut].map(|[first, last, ..]| [first, last]);
                assert!(!plain.meet_well(a, b) && !plain.meet_well(b, a));
            }
        }
    }

    /// At changes 1, 2 and 3 with budget 0 both bursts have as many jumps as that, and share 2.
    #[test]
    fn as_many_jumps_as_the_budget_are_too_many() {
        for mut side in sides(&[0, 1, 0, 1], 0) {
            assert_eq!(finds(&mut *side, 3, [1, 0, 0]), Some([1, 2, 0, 0]));
            assert_eq!(finds(&mut *side, 3, [2, 0, 0]), Some([2, 3, 0, 0]));
            assert!(!Plain::new(&[1, 2, 3], 2).meet_well([1, 2], [2, 3]));
            // A larger budget gives a larger one.
            assert_eq!(finds(&mut *side, 3, [1, 0, 1]), Some([1, 3, 1, 0]));
        }
    }

    #[test]
    fn a_burst_is_found_from_outside_within_the_tolerance() {
        for mut side in sides(&[0, 1, 0], 0) {
            for place in [0, 3] {
                assert_eq!(finds(&mut *side, 2, [place, 1, 1]), Some([1, 2, 0, 0]));
                assert_eq!(finds(&mut *side, 2, [place, 0, 1]), None);
            }
        }
    }
}
