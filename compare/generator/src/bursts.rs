//! Bursts of the port that are found from different places (CR 13), beside a plain scan: of every short line, with several
//! gaps, tolerances and budgets, of the captures that the random run holds, and of lines that have bursts; as the service and
//! as a mill.

use crate::document::bursts::changes;
use crate::document::rules;
use crate::list::List;
use crate::meeting::{Held, Meeting, Reader};
use crate::mill;
use crate::op::{Op, Store};
use crate::shapes::{mask, CHUNK};
use rng::Rng;

const MAX: u64 = u64::MAX;

/// What is asked of every line of up to so many samples.
const SAMPLES: u64 = 10;
const GAPS: [u64; 8] = [0, 1, 2, 3, 4, 5, 6, MAX];
const TOLERANCES: [u64; 4] = [0, 1, 2, MAX];
const BUDGETS: [u64; 5] = [0, 1, 2, 3, MAX];

#[derive(Default)]
pub struct Bursts {
    /// Bursts asked for.
    pub asked: u64,
    /// Pairs of a mask and gap with jumps below their budgets.
    pub pairs: u64,
    /// Bursts beside one of a smaller budget.
    pub larger: u64,
}

impl Bursts {
    /// What is asked once.
    pub fn sweep(&mut self, list: &mut List, rng: &mut Rng) {
        each_line(SAMPLES, |highs| {
            let unit = 1 + rng.below(2);
            let line = 1 << rng.below(8 * unit);
            let others = rules::lines(unit) & !line;
            let level = |high: bool| if high { line } else { 0 };
            let sample = |&high: &bool| level(high) | rng.number() as u16 & others;
            let samples: Vec<u16> = highs.iter().map(sample).collect();
            let grant = line | rng.number() as u16 & rng.pick(&[0, 0xFFFF]);
            let mill = Reader::Mill { grant, mark: marked(list, rng, unit, &samples) };
            for reader in [Reader::Service, mill] {
                self.everywhere(list, reader, &samples, line);
            }
            list.text();
        });
    }

    fn everywhere(&mut self, list: &mut List, reader: Reader, samples: &[u16], mask: u16) {
        let changes = changes(samples, mask);
        for max_gap in GAPS {
            let ask = |op: &Op| list.asker().ask_port(op);
            let mut meeting = Meeting::new(&changes, mask, max_gap, reader, ask);
            for sample in (0..samples.len() as u64 + 2).chain([MAX]) {
                for tolerance in TOLERANCES {
                    meeting.ask(sample, tolerance, &BUDGETS);
                }
            }
            meeting.list();
            let held = meeting.held;
            self.noted(list, held);
        }
    }

    /// The capture that the list holds, and at times a line that has bursts.
    pub fn ask(&mut self, list: &mut List, rng: &mut Rng) {
        let document = list.asker().document();
        if !document.refuses() {
            let mask = mask(rng, 8 * document.store().unit);
            self.under(list, rng, mask);
        }
        if rng.once_in(2) {
            let line = bursty(list, rng);
            self.under(list, rng, line);
        }
    }

    /// Some places, tolerances and budgets, for a mask and a gap.
    fn under(&mut self, list: &mut List, rng: &mut Rng, mask: u16) {
        let document = list.asker().document();
        let Store { len, mark, .. } = document.store();
        let changes = changes(document.samples(), mask);
        let (max_gap, grant) = (gap(rng, &changes), mask | mill::grant(rng));
        // Many jumps in a long capture take their time.
        let places = if len > 100_000 { 3 } else { 8 };
        for reader in [Reader::Service, Reader::Mill { grant, mark: mark.unwrap_or(0) }] {
            let ask = |op: &Op| list.asker().ask_port(op);
            let mut meeting = Meeting::new(&changes, mask, max_gap, reader, ask);
            for _ in 0..places {
                let below = max_gap.saturating_sub(1);
                let tolerance = rng.pick(&[0, 0, 1, 2, 30, below, max_gap, MAX]);
                let some = rng.below(changes.len() as u64 + 2);
                let mut budgets = [0; 3].map(|_| rng.pick(&[0, 1, 1, 2, 3, 9, some, MAX]));
                budgets.sort();
                meeting.ask(place(rng, len, &changes, max_gap), tolerance, &budgets);
            }
            if changes.len() < 1_000 {
                meeting.list();
            }
            let held = meeting.held;
            self.noted(list, held);
        }
    }

    fn noted(&mut self, list: &mut List, held: Held) {
        self.asked += held.asked;
        self.pairs += held.below * held.below.saturating_sub(1) / 2;
        self.larger += held.larger;
        if let Some(fault) = held.fault {
            list.asker().differs(&fault);
        }
    }
}

/// Each line of up to so many samples that is low at first: where it is high.
pub fn each_line(most: u64, mut found: impl FnMut(&[bool])) {
    for len in 0..=most {
        for set in 0..1u64 << len.saturating_sub(1) {
            let changes = |place: u64| (set & ((1 << place) - 1)).count_ones();
            let highs: Vec<bool> = (0..len).map(|place| changes(place) % 2 == 1).collect();
            found(&highs);
        }
    }
}

/// A capture of these samples with a mark, which is the answer.
fn marked(list: &mut List, rng: &mut Rng, unit: u64, samples: &[u16]) -> u64 {
    let len = samples.len() as u64;
    let (capacity, mark) = (len.max(SAMPLES), rng.below(len + 1));
    list.holding(8 * unit, capacity, samples);
    list.say(Op::Record(Store { unit, capacity, len, mark: Some(mark) }));
    mark
}

/// A capture with a line whose changes are mostly less than a gap apart, and else often just that; most often about the border
/// of a node or a chunk. The line, beside which all others change.
fn bursty(list: &mut List, rng: &mut Rng) -> u16 {
    let unit = 1 + rng.below(2);
    let line = 1 << rng.below(8 * unit);
    let [gaps, most] = [&[1, 5, 5, 60], &[8, 20, 60, 500]].map(|of| rng.pick(of));
    let gap = 2 + rng.below(gaps);
    let border = match rng.below(500) {
        0 => CHUNK,
        1..=20 => 32_768,
        21..=100 => 1_024,
        _ => rng.pick(&[0, 32, 64]),
    };
    let quiet = border.saturating_sub(rng.below(10 * gap));
    let mut samples = vec![0; quiet as usize];
    let mut level = 0;
    for _ in 0..rng.below(most) {
        let distance = match rng.below(16) {
            0 => gap,
            1 => gap + 1,
            2 => gap + rng.below(4 * gap),
            3..=5 => 1,
            6..=8 => gap - 1,
            _ => 1 + rng.below(gap - 1),
        };
        level ^= line;
        let others = rules::lines(unit) & !line;
        samples.extend((0..distance).map(|_| level | rng.number() as u16 & others));
    }
    marked(list, rng, unit, &samples);
    line
}

/// A gap that is small, large, about a distance of changes, or about where its sum with a change leaves 64 bits.
fn gap(rng: &mut Rng, changes: &[u64]) -> u64 {
    let from = rng.below(changes.len() as u64 + 1) as usize;
    let part = &changes[from..changes.len().min(from + 2 + rng.below(3) as usize)];
    let [first, last] = [part.first(), part.last()].map(|place| place.copied().unwrap_or(0));
    match rng.below(8) {
        0 => rng.below(3),
        1 => 2 + rng.below(6),
        2 => 2 + rng.below(1_100),
        3 => MAX - (first + 1).saturating_sub(rng.below(4)),
        _ => (last - first + rng.below(3)).saturating_sub(1),
    }
}

/// A place at a change, up to two beside it or about a gap away, at an end of the capture, or any.
fn place(rng: &mut Rng, len: u64, changes: &[u64], max_gap: u64) -> u64 {
    let beside = rng.below(5);
    match rng.below(10) {
        0 => rng.below(len + 2),
        1 => rng.pick(&[0, len, MAX - 1, MAX]),
        _ if changes.is_empty() => rng.below(len + 2),
        2 => rng.pick(changes).saturating_add(max_gap).saturating_add(beside).saturating_sub(2),
        3 => (rng.pick(changes) + beside).saturating_sub(max_gap).saturating_sub(2),
        _ => (rng.pick(changes) + beside).saturating_sub(2),
    }
}
