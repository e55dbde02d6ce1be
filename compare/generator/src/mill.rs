//! Random questions of mills about the capture that a list holds, and about another that looks like it to a mill.

use crate::document::refusals::need;
use crate::groups::refused::rows_1_and_2;
use crate::groups::render::SPECIAL;
use crate::list::{append, List};
use crate::op::{Ask, Mill, Op, Store, View};
use crate::port::Port;
use crate::shapes::{line, mask, CHUNK};
use crate::side::Side;
use rng::Rng;

/// How a mill's places lie in the capture.
#[derive(Clone, Copy)]
pub struct Run {
    pub len: u64,
    pub mark: u64,
}

/// The kinds of question, and those that search.
const KINDS: u64 = 9;
pub const SEARCHES: [u64; 3] = [4, 5, 6];

#[derive(Default)]
pub struct Mills {
    /// Where the captures are that look alike.
    pub other: Port,
    /// Questions asked of two captures alike.
    pub twice: u64,
}

impl Mills {
    /// Asks some questions. A store without a mark may get one first.
    pub fn ask(&mut self, list: &mut List, rng: &mut Rng) {
        let document = list.asker().document();
        let (mut store, refused) = (document.store(), document.refuses());
        if store.mark.is_none() && !refused && !rng.once_in(4) {
            let somewhere = rng.below(store.len + 1);
            store.mark = Some(rng.pick(&[0, somewhere, somewhere, store.len]));
            list.say(Op::Record(store));
        }
        let run = Run { len: store.len, mark: store.mark.unwrap_or(0) };
        // A plain scan of a long capture takes its time.
        let grants = if run.len > 100_000 { 1 } else { 6 };
        for _ in 0..grants {
            let grant = grant(rng);
            for _ in 0..3 {
                let kind = rng.below(KINDS);
                let ask = ask(rng, run, grant, kind);
                list.say(Op::Mill(Mill { grant, ask }));
            }
        }
        if refused {
            return;
        }
        if rng.once_in(100) {
            let grant = grant(rng);
            let call = |kind| Op::Mill(Mill { grant, ask: ask(rng, run, grant, kind) });
            let calls: Vec<Op> = (0..KINDS).map(call).collect();
            rows_1_and_2(list, store, &calls);
        }
        if rng.once_in(3) {
            self.alike(list, rng, store);
        }
    }

    /// A capture that differs in lines beyond the grant, and perhaps in unit and capacity, gives the same to each call, and
    /// the same count of nodes.
    fn alike(&mut self, list: &mut List, rng: &mut Rng, store: Store) {
        let grant = grant(rng);
        let samples = list.asker().document().samples();
        // A line that the smaller unit lacks is 0 in it.
        let high = samples.iter().any(|v| v & grant > 0xFF);
        let unit = if high { 2 } else { 1 + rng.below(2) };
        let lines = if unit == 1 { 0xFF } else { 0xFFFF };
        let samples: Vec<u16> =
            samples.iter().map(|v| v & grant | rng.number() as u16 & !grant & lines).collect();
        let (channels, capacity) = (8 * unit, samples.len() as u64 + 1 + rng.below(40));
        for op in [
            Op::Lend(need(unit, capacity)),
            Op::Capture { channels, capacity },
            append(channels, &samples),
            Op::Record(Store { unit, capacity, ..store }),
        ] {
            self.other.take(&op);
        }
        let run = Run { len: store.len, mark: store.mark.unwrap_or(0) };
        for kind in 0..KINDS {
            for _ in 0..2 {
                let op = Op::Mill(Mill { grant, ask: ask(rng, run, grant, kind) });
                list.say(op.clone());
                let answer = self.other.take(&op);
                let asker = list.asker();
                if asker.ported() != answer.as_ref() {
                    asker.differs(&format!("alike: {op:?} gives {answer:?} of unit {unit}"));
                }
                let read = asker.port().and_then(|port| port.read);
                if read != self.other.read {
                    let other = self.other.read;
                    asker.differs(&format!("alike: {op:?} reads {read:?} and {other:?} nodes"));
                }
                self.twice += 1;
            }
        }
        for fault in self.other.faults() {
            list.asker().differs(&format!("alike: {fault}"));
        }
    }
}

pub fn grant(rng: &mut Rng) -> u16 {
    match rng.below(6) {
        0 => 0xFFFF,
        1 => rng.pick(&[0, 1, 0xFF, 0xFF00]),
        2 => 1 << rng.below(16),
        3 => 3,
        _ => rng.number() as u16,
    }
}

/// A question of one of the kinds.
pub fn ask(rng: &mut Rng, run: Run, grant: u16, kind: u64) -> Ask {
    let at = place(rng, run);
    match kind {
        0 => Ask::Extent,
        1 => Ask::Get(at),
        2 => {
            let count = rng.pick(&[0, 1, 5, 30, u64::MAX]);
            // A long copy is refused: its answer would be long too.
            let left = (run.len as i128 - run.mark as i128 - at as i128).clamp(0, 1 << 40) as u64;
            let output = if left.min(count) > 40 { 40 } else { rng.pick(&[0, 5, 40, 40]) };
            Ask::Samples { start: at, count, output }
        }
        3 => Ask::Summary { a: at, b: place(rng, run) },
        4 => Ask::Next { mask: within(rng, grant), from: at },
        5 => Ask::Prev { mask: within(rng, grant), from: at },
        6 => {
            let max_gap = match rng.below(8) {
                0 => rng.below(3),
                1 => rng.pick(&[run.len, u64::MAX - 1, u64::MAX]),
                2..=4 => 2 + rng.below(6),
                _ => 2 + rng.below(1_100),
            };
            let tolerance = rng.pick(&[0, 1, 2, 30, max_gap, u64::MAX]);
            let budget = rng.pick(&[0, 1, 2, 9, u64::MAX]);
            Ask::Burst { mask: within(rng, grant), sample: at, max_gap, tolerance, budget }
        }
        7 => Ask::Render(view(rng, run, at)),
        _ => Ask::Encoder { a: line_within(rng, grant), b: line_within(rng, grant) },
    }
}

/// A line that is most often within the grant.
fn line_within(rng: &mut Rng, grant: u16) -> u64 {
    let granted: Vec<u64> = (0..16).filter(|line| grant >> line & 1 == 1).collect();
    match rng.below(8) {
        0 => line(rng, 16),
        _ if granted.is_empty() => rng.below(16),
        _ => rng.pick(&granted),
    }
}

/// A mask that is most often within the grant.
fn within(rng: &mut Rng, grant: u16) -> u16 {
    match rng.below(8) {
        0 => mask(rng, 16),
        1 => grant,
        2 => grant ^ 1 << rng.below(16),
        _ => grant & mask(rng, 16),
    }
}

/// A place of the run, or up to two beside it, often near its ends, the mark or a border of a level; or an end of 64 bits.
fn place(rng: &mut Rng, Run { len, mark }: Run) -> i64 {
    let near = match rng.below(10) {
        0 => return rng.pick(&[i64::MIN, i64::MIN + 1, i64::MAX - 1, i64::MAX]),
        1 => 0,
        2 => len,
        3 => mark,
        4 => {
            let span = rng.pick(&[32, 1_024, 32_768, CHUNK]);
            rng.below(len / span + 2) * span
        }
        _ => rng.below(len + 1),
    };
    near as i64 - mark as i64 + rng.below(5) as i64 - 2
}

/// A view around a place: half of them of halves, to which the Rust can be asked, the others of any numbers.
fn view(rng: &mut Rng, run: Run, at: i64) -> View {
    let near = if at.unsigned_abs() > 1 << 40 { 0.0 } else { at as f64 };
    let (start, spp) = if rng.once_in(2) {
        let spp = match rng.below(4) {
            0 => (run.len / (1 + rng.below(9))) as f64,
            1 => rng.pick(&[31.0, 32.0, 33.0, 1_024.0]),
            _ => rng.below(9) as f64 / 2.0 - 1.0,
        };
        (near + rng.below(9) as f64 / 2.0 - 2.0, spp)
    } else {
        let start = match rng.below(6) {
            0 => rng.pick(&SPECIAL),
            1 => at as f64,
            2 => near / 7.0,
            // Moved by a mark it would be rounded to the place itself.
            3 => near.next_down(),
            _ => near + rng.below(1_000) as f64 / 1_000.0 - 0.5,
        };
        let spp = match rng.below(6) {
            0 => rng.pick(&SPECIAL),
            1 => f64::from_bits(rng.number()),
            2 => run.len as f64 / (1 + rng.below(9)) as f64,
            3 => -(rng.below(300) as f64) / 100.0,
            _ => rng.below(5_000) as f64 / 1_000.0,
        };
        (start, spp)
    };
    let width = rng.pick(&[0, 1, 2, 3, 5, 8, 8, 65_537]);
    let output = 2 * width.min(9) + rng.pick(&[0, 0, 0, 0, 1]) - rng.pick(&[0, 0, 0, 1]).min(width);
    View { start, spp, width, output }
}
