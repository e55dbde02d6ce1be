//! Times each work on both sides and prints a line for it.

use crate::rattle::Rattle;
use crate::rust::Rust;
use crate::side::{Side, Timed};
use crate::work::Samples;
use std::time::{Duration, Instant};

/// Each line takes at least five rounds of both sides, and this long.
const LONG: Duration = Duration::from_millis(600);

/// A work as a side does it.
pub type Work<'a> = &'a dyn Fn(&dyn Side) -> Option<Timed>;

pub struct Table {
    pub unit: usize,
    rust: Rust,
    rattle: Rattle,
}

impl Table {
    pub fn new(unit: usize) -> Table {
        Table { unit, rust: Rust::new(), rattle: Rattle::default() }
    }

    pub fn heading() {
        println!(
            "{:<42} {:>4}  {:<6} {:>10} {:>10} {:>6}  buffers of the Rust; of Rattle",
            "operation", "unit", "per", "Rust ns", "Rattle ns", "ratio"
        );
    }

    /// Where the command has arguments, only lines whose name begins with one of them.
    fn wanted(&self, name: &str) -> bool {
        let mut words = std::env::args().skip(1).peekable();
        words.peek().is_none() || words.any(|word| name.starts_with(&word))
    }

    /// Both sides make the capture that the next questions are about.
    pub fn hold(&mut self, samples: &Samples) {
        self.rust.hold(samples);
        self.rattle.hold(samples);
    }

    pub fn line(&self, name: &str, per: &str, work: impl Fn(&dyn Side) -> Option<Timed>) {
        if !self.wanted(name) {
            return;
        }
        let [rust, rattle] = best([&|| work(&self.rust), &|| work(&self.rattle)]);
        if let (Some(rust), Some(rattle)) = (&rust, &rattle) {
            let answers = |timed: &Timed| (timed.count, timed.sum);
            assert_eq!(answers(rust), answers(rattle), "{name}: the sides differ");
        }
        self.print(name, per, rust, rattle, "");
    }

    /// For work that the Rust has no call for: the port's, and its ratio to other work of the port.
    pub fn line_beside(&self, [name, beside]: [&str; 2], per: &str, works: [Work; 2]) {
        self.line_of_two(name, per, works, |work, other| {
            let (ratio, other) = (each(&work) / each(&other), each(&other));
            (work, format!(" ({ratio:.2} of {beside}, which took {other:.2})"))
        });
    }

    /// For work that holds other work of the port: what it takes beyond that.
    pub fn line_beyond(&self, [name, beyond]: [&str; 2], per: &str, works: [Work; 2]) {
        self.line_of_two(name, per, works, |work, other| {
            let time = work.time.saturating_sub(other.time);
            (Timed { time, ..work }, format!(" (beyond {beyond})"))
        });
    }

    /// A work of the port as it is shown with another, and a note.
    fn line_of_two(
        &self,
        name: &str,
        per: &str,
        [work, other]: [Work; 2],
        shown: impl Fn(Timed, Timed) -> (Timed, String),
    ) {
        if !self.wanted(name) {
            return;
        }
        let [work, other] = best([&|| work(&self.rattle), &|| other(&self.rattle)]);
        let (work, note) = work.zip(other).map(|(work, other)| shown(work, other)).unzip();
        self.print(name, per, None, work, &note.unwrap_or_default());
    }

    fn print(&self, name: &str, per: &str, rust: Option<Timed>, rattle: Option<Timed>, note: &str) {
        let (theirs, ours) = (rust.as_ref().map(each), rattle.as_ref().map(each));
        let ratio = theirs.zip(ours).map(|(theirs, ours)| ours / theirs);
        let number = |n: Option<f64>| n.map_or("-".into(), |n| format!("{n:.2}"));
        let buffers = |timed: Option<Timed>| timed.map_or("-", |timed| timed.buffers);
        println!(
            "{name:<42} {:>4}  {per:<6} {:>10} {:>10} {:>6}  {}; {}{note}",
            self.unit,
            number(theirs),
            number(ours),
            number(ratio),
            buffers(rust),
            buffers(rattle),
        );
    }
}

/// Nanoseconds for each of a work's count.
fn each(timed: &Timed) -> f64 {
    timed.time.as_secs_f64() * 1e9 / timed.count.max(1) as f64
}

/// The fastest of several rounds of each work. They take turns, so that both meet the same machine.
fn best(works: [&dyn Fn() -> Option<Timed>; 2]) -> [Option<Timed>; 2] {
    let begun = Instant::now();
    let mut best = works.map(|work| work());
    let mut rounds = 1;
    while rounds < 5 || begun.elapsed() < LONG {
        for (best, work) in best.iter_mut().zip(works) {
            let Some(fastest) = best else { continue };
            match work() {
                Some(timed) if timed.time < fastest.time => *fastest = timed,
                _ => {}
            }
        }
        rounds += 1;
    }
    best
}
