//! The unchanged Rust as a side. It has no capacity, no lent memory and no refusals;
//! where it panics it has no answer. A line with Rising and Falling is given to it as one with Edge.

mod mill;

use crate::digest::digest;
use crate::document::{listed, optional};
use crate::feed::to_bytes;
use crate::op::{Across, Burst, Condition, Op, Settings, Store, Term, Way, Wish};
use crate::side::{Answer, Side};
use edgewise::capture::{Capture, Snapshot};
use edgewise::trigger::{self, pretrigger_samples, Feeder, TriggerTerm};
use std::cell::Cell;
use std::panic::{catch_unwind, set_hook, take_hook, AssertUnwindSafe};
use std::sync::{Arc, Once};

pub struct Rust {
    capture: Arc<Capture>,
    feeder: Option<Feeder>,
}

thread_local! {
    static QUIET: Cell<bool> = const { Cell::new(false) };
}

impl Rust {
    pub fn new() -> Rust {
        static HOOK: Once = Once::new();
        HOOK.call_once(|| {
            let loud = take_hook();
            set_hook(Box::new(move |panic| {
                if !QUIET.get() {
                    loud(panic);
                }
            }));
        });
        Rust { capture: Arc::new(Capture::new(0, 1)), feeder: None }
    }

    /// Whether sums that overflow panic, as they must for answers.
    pub fn checks_overflow(&mut self) -> bool {
        let beyond = Op::Next { mask: 1, from: u64::MAX };
        self.take(&beyond).is_none()
    }
}

impl Side for Rust {
    fn take(&mut self, op: &Op) -> Option<Answer> {
        QUIET.set(true);
        let caught = catch_unwind(AssertUnwindSafe(|| self.answer(op)));
        QUIET.set(false);
        caught.ok().flatten().map(Ok)
    }
}

impl Rust {
    fn answer(&mut self, op: &Op) -> Option<Vec<u64>> {
        let snapshot = match op {
            // No snapshot is alive while the capture grows: the Rust would copy the chunk.
            Op::Append(feed) => {
                let unit = self.capture.snapshot().meta.unitsize as u64;
                for piece in feed.pieces(unit) {
                    self.capture.append(&piece);
                }
                return Some(vec![self.capture.len()]);
            }
            Op::Push(feed) => {
                let unit = self.capture.snapshot().meta.unitsize as u64;
                let feeder = self.feeder.as_mut()?;
                let mut more = true;
                for piece in feed.pieces(unit) {
                    more = feeder.push(&piece);
                }
                return Some(vec![!more as u64]);
            }
            Op::Capture { channels, .. } => {
                self.capture = Arc::new(Capture::new(0, *channels as usize));
                self.feeder = None;
                return Some(vec![self.capture.snapshot().meta.unitsize as u64]);
            }
            Op::Start(settings) => return Some(self.start(settings)),
            // Of a record that a line sets it has the mark alone.
            Op::Record(store) => {
                self.capture.set_trigger(store.mark);
                return None;
            }
            _ => self.capture.snapshot(),
        };
        match op {
            Op::Run => Some(self.run(&snapshot)),
            Op::Get(i) => Some(vec![snapshot.get(*i) as u64]),
            Op::Samples { start, count, .. } => Some(listed(&snapshot.samples(*start, *count))),
            Op::Raw(chunk) => {
                let bytes = snapshot.raw_chunks().nth(*chunk as usize).unwrap_or(&[]);
                Some(vec![bytes.len() as u64, digest(bytes.iter().map(|&b| b as u64))])
            }
            Op::Next { mask, from } => Some(place(&snapshot, Way::Next, *mask, *from)),
            Op::Prev { mask, from } => Some(place(&snapshot, Way::Prev, *mask, *from)),
            // Without stretches both sorts are its own search.
            Op::Across(Across { way, mask, from, stretches, .. }) if stretches.is_empty() => {
                Some(place(&snapshot, *way, *mask, *from))
            }
            Op::Summary { a, b } => {
                let node = snapshot.summary(*a, *b);
                Some(optional(node.map(|n| [n.first, n.last, n.mask].map(u64::from))))
            }
            Op::Burst(burst) => Some(optional(burst_and_jumps(&snapshot, burst))),
            Op::Render(view) => {
                Some(listed(&snapshot.render(view.start, view.spp, view.width as usize)))
            }
            Op::RenderDigest(view) => {
                let row = snapshot.render(view.start, view.spp, view.width as usize);
                Some(vec![digest(row.into_iter().map(u64::from))])
            }
            Op::Pretrigger { time, rate, unit } => {
                let (pre, cut) = pretrigger_samples(*time, *rate, *unit as usize);
                Some(vec![pre, cut as u64])
            }
            Op::Mill(mill) => mill::answer(&snapshot, mill),
            // No such calls, or none that shows it.
            _ => None,
        }
    }

    /// A capture that holds these samples, by one append.
    pub fn hold(&mut self, store: Store, samples: &[u16]) {
        self.capture = Arc::new(Capture::new(0, 8 * store.unit as usize));
        self.capture.append(&to_bytes(samples, store.unit));
        self.capture.set_trigger(store.mark);
        self.feeder = None;
    }

    fn start(&mut self, s: &Settings) -> Vec<u64> {
        let capture = Arc::new(Capture::new(s.rate, s.channels as usize));
        let unit = capture.snapshot().meta.unitsize;
        let terms: Vec<_> = given(&s.terms).iter().map(|t| term(t.line, t.condition)).collect();
        let (fraction, (unlimited, cut)) = match s.wish {
            Wish::Fraction(p) => (p, (0, false)),
            Wish::Seconds(t) => (0.0, pretrigger_samples(t, s.rate, unit)),
        };
        let pre = if s.limit == 0 { unlimited } else { kept_before(s.limit, fraction) };
        let feeder = Feeder::new(capture.clone(), unit, s.limit, &terms, fraction, unlimited);
        self.feeder = Some(feeder);
        self.capture = capture;
        vec![unit as u64, pre, cut as u64]
    }

    fn run(&self, snapshot: &Snapshot) -> Vec<u64> {
        let mark = snapshot.meta.trigger;
        let armed = self.feeder.as_ref().is_some_and(Feeder::armed);
        let digest = digest(snapshot.samples(0, snapshot.len).into_iter().map(u64::from));
        let marked = mark.is_some() as u64;
        vec![snapshot.len, marked, mark.unwrap_or(0), armed as u64, digest]
    }
}

fn place(snapshot: &Snapshot, way: Way, mask: u16, from: u64) -> Vec<u64> {
    let found = match way {
        Way::Next => snapshot.next_change(mask, from),
        Way::Prev => snapshot.prev_change(mask, from),
    };
    optional(found.map(|i| [i]))
}

/// Document 02, CR 4: "The Rust is run with the two terms replaced by one Edge term."
fn given(terms: &[Term]) -> Vec<Term> {
    let named = |line, condition| terms.contains(&Term { line, condition });
    let both = |line| named(line, Condition::Rising) && named(line, Condition::Falling);
    let one_of_two =
        |t: &Term| matches!(t.condition, Condition::Rising | Condition::Falling) && both(t.line);
    let mut given: Vec<Term> = terms.iter().copied().filter(|t| !one_of_two(t)).collect();
    let lines = (0..=u8::MAX).filter(|&line| both(line));
    given.extend(lines.map(|line| Term { line, condition: Condition::Edge }));
    given
}

fn term(channel: u8, condition: Condition) -> TriggerTerm {
    let condition = match condition {
        Condition::Rising => trigger::Condition::Rising,
        Condition::Falling => trigger::Condition::Falling,
        Condition::Edge => trigger::Condition::Edge,
        Condition::High => trigger::Condition::High,
        Condition::Low => trigger::Condition::Low,
    };
    TriggerTerm { channel, condition }
}

/// The feeder keeps this number to itself. It shows when a trigger fires after `limit` samples.
fn kept_before(limit: u64, fraction: f64) -> u64 {
    let capture = Arc::new(Capture::new(0, 1));
    let terms = [term(0, Condition::High)];
    let mut feeder = Feeder::new(capture, 1, limit, &terms, fraction, 0);
    feeder.push(&vec![0; limit as usize]);
    feeder.push(&[1]);
    feeder.trigger_at().expect("the last sample fires")
}

/// The Rust doesn't count its jumps. It makes k at an end where budget k,
/// and no smaller one, gets as far as the budget asked.
fn burst_and_jumps(snapshot: &Snapshot, b: &Burst) -> Option<[u64; 4]> {
    let ask =
        |budget: u64| snapshot.burst_at(b.mask, b.sample, b.max_gap, b.tolerance, budget as usize);
    let (first, last) = ask(b.budget)?;
    // Each jump passes a change, so there are never more than samples.
    let most = b.budget.min(snapshot.len);
    let at_end = smallest(most, |budget| ask(budget).is_some_and(|found| found.1 == last));
    let at_start = smallest(most, |budget| ask(budget).is_some_and(|found| found.0 == first));
    Some([first, last, at_end, at_start])
}

/// The smallest number up to `most` that holds, where all above one that holds do too.
fn smallest(most: u64, holds: impl Fn(u64) -> bool) -> u64 {
    let (mut low, mut high) = (0, most);
    while low < high {
        let middle = (low + high) / 2;
        if holds(middle) {
            high = middle;
        } else {
            low = middle + 1;
        }
    }
    low
}
