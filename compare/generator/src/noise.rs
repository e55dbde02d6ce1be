//! Searches, bursts, summaries, densities and encoders over memory that no list of calls made: patterns, what other captures
//! left, and numbers put into the levels of a capture. What they find may be no change; place and count of nodes are those of
//! the walk over what memory holds, a summary and its count of changes those of the nodes that are there, to which the port's
//! side holds them. An encoder's position is that of its counts, and a mill that may see its lines gets what the service gets.

use crate::document::{file, refusals, refusals::need, rules};
use crate::feed::Feed;
use crate::groups::unknown::four;
use crate::list::List;
use crate::mill::{self, Run};
use crate::node::NUMBERS;
use crate::op::{Ask, Burst, Mill, Op, Store};
use crate::port::Port;
use crate::shapes::{another, mask, CHUNK};
use crate::side::Side;
use crate::stretches;
use rng::Rng;

#[derive(Default)]
pub struct Noise {
    pub port: Port,
}

impl Noise {
    pub fn ask(&mut self, list: &mut List, rng: &mut Rng) {
        let capacity = match rng.below(200) {
            0 => rng.pick(&[CHUNK, CHUNK + 33, 2 * CHUNK + 1]) + rng.below(40),
            1..=20 => 32_000 + rng.below(4_000),
            21..=120 => 1 + rng.below(2_500),
            _ => 1 + rng.below(100),
        };
        let channels = rng.pick(&[8, 16]);
        self.port.take(&Op::Lend(need(rules::unit(channels), capacity)));
        self.port.take(&Op::Capture { channels, capacity });
        if rng.once_in(2) {
            self.fill(rng, channels, capacity);
        } else {
            self.port.hold(rng.below(capacity + 1) as usize);
        }
        let len = self.port.len();
        let mark = rng.once_in(2).then(|| rng.below(len + 1));
        self.port.take(&Op::Record(Store { unit: rules::unit(channels), capacity, len, mark }));
        searches(&mut self.port, list, rng, Run { len, mark: mark.unwrap_or(0) });
        if len > 0 {
            self.counts(rng, rules::unit(channels), capacity);
        }
        densities(&mut self.port, list, rng);
        encoders(&mut self.port, list, rng);
        unknowns(&mut self.port, list, rng);
        match rng.below(8) {
            0..=1 => files(&mut self.port, list, rng),
            2..=3 => salvages(&mut self.port, list, rng),
            _ => {}
        }
    }

    /// Large counts in neighbouring nodes of a level, most of which add up to about 2^32.
    fn counts(&mut self, rng: &mut Rng, unit: u64, capacity: u64) {
        let level = 1 + rng.below(3);
        let nodes = need(unit, capacity).levels[level as usize - 1] / NUMBERS as u64;
        let first = rng.below(nodes);
        for node in first..nodes.min(first + 1 + rng.below(5)) {
            let (low, high) = match rng.below(5) {
                0 => (0xFFFF, 0xFFFF),
                1 => (0xFFFF - rng.below(4) as u16, 0xFFFF),
                2 => (rng.below(3) as u16, 0),
                3 => (rng.pick(&[0, 1, 0xFFFF]), rng.pick(&[0x7FFF, 0x8000])),
                _ => (rng.number() as u16, rng.number() as u16),
            };
            for (half, value) in [(3, low), (4, high)] {
                let index = NUMBERS as u64 * node + half;
                self.port.take(&Op::Put { level, index, value });
            }
        }
    }

    /// A calm capture, over which a search goes far, and then wrong numbers in some of its nodes.
    fn fill(&mut self, rng: &mut Rng, channels: u64, capacity: u64) {
        let (mut left, mut value, mut runs) =
            (capacity - rng.below(capacity.min(40)), 0, Vec::new());
        while left > 0 {
            let count = if rng.once_in(3) { left } else { 1 + rng.below(left) };
            runs.push((count, value));
            value = another(rng, value, 8);
            left -= count;
        }
        self.port.take(&Op::Append(Feed::Runs(runs)));
        for _ in 0..1 + rng.below(8) {
            let level = 1 + rng.below(4);
            let index = rng.below(need(rules::unit(channels), capacity).levels[level as usize - 1]);
            let value = rng.pick(&[0, 0, 1, 2, 3, 0xFFFF]);
            self.port.take(&Op::Put { level, index, value });
        }
    }
}

/// Asks for changes and bursts as a mill and, at the same places, as the service.
pub fn searches(port: &mut Port, list: &mut List, rng: &mut Rng, run: Run) {
    for _ in 0..4 {
        let grant = mill::grant(rng);
        for kind in mill::SEARCHES {
            let ask = mill::ask(rng, run, grant, kind);
            for op in [Op::Mill(Mill { grant, ask }), of_service(ask, run.mark)] {
                port.take(&op);
                for fault in port.faults() {
                    list.asker().differs(&format!("memory that no call made: {op:?}: {fault}"));
                }
            }
        }
    }
}

/// Asks for summaries and densities of all that is stored, of stretches between borders of nodes, and of any.
pub fn densities(port: &mut Port, list: &mut List, rng: &mut Rng) {
    let len = port.len();
    for kind in 0..6 {
        let span = rng.pick(&[1, 32, 32, 1_024]);
        let mut border = || rng.below(len / span + 2) * span;
        let (a, b) = if kind == 0 { (0, u64::MAX) } else { (border(), border()) };
        for op in [Op::Summary { a, b }, Op::Density { a, b }] {
            port.take(&op);
            for fault in port.faults() {
                list.asker().differs(&format!("memory that no call made: {op:?}: {fault}"));
            }
        }
    }
}

/// Replays encoders as the service and as a mill that may see both lines.
pub fn encoders(port: &mut Port, list: &mut List, rng: &mut Rng) {
    for _ in 0..3 {
        let (a, b) = (rng.below(16), rng.below(16));
        let grant = rng.number() as u16 | 1 << a | 1 << b;
        let ops = [Op::Encoder { a, b }, Op::Mill(Mill { grant, ask: Ask::Encoder { a, b } })];
        let answers = ops.each_ref().map(|op| port.take(op).expect("it is a call"));
        let mut faults = port.faults();
        if answers[0] != answers[1] || answers[0].is_ok() != (a != b) {
            faults.push(format!("the answers are {answers:?}"));
        }
        for fault in faults {
            list.asker().differs(&format!("memory that no call made: {ops:?}: {fault}"));
        }
    }
}

/// Searches across unknown stretches: refused exactly where row 18 holds, whatever the levels are.
fn unknowns(port: &mut Port, list: &mut List, rng: &mut Rng) {
    let len = port.len();
    for _ in 0..3 {
        let mut stretches = stretches::random(rng, len);
        if rng.once_in(4) {
            stretches = stretches::spoiled(rng, &stretches, len);
        }
        let right = refusals::stretches(&stretches, len);
        let from = rng.below(len + 2);
        for op in four(mask(rng, 16), rng.pick(&[0, from, from, u64::MAX]), &stretches) {
            let answer = port.take(&op).expect("it is a call");
            let mut faults = port.faults();
            if answer.as_ref().err() != right.as_ref().err() {
                faults.push(format!("the answer is {answer:?}"));
            }
            for fault in faults {
                list.asker().differs(&format!("memory that no call made: {op:?}: {fault}"));
            }
        }
    }
}

/// Writes the file of what memory holds, and reads it again over the same memory: then the levels are right.
fn files(port: &mut Port, list: &mut List, rng: &mut Rng) {
    let (unit, len) = (port.unit(), port.len());
    let count = file::length(unit, len);
    let capacity = (len + rng.below(3)).max(1);
    for op in [
        Op::FileLen,
        Op::Write { output: count - rng.below(2) },
        Op::Write { output: count + rng.below(2) },
        Op::Lend(need(unit, capacity)),
        Op::Read { capacity: len.saturating_sub(1), count },
        Op::Read { capacity, count },
        Op::Whole,
    ] {
        port.take(&op);
        for fault in port.faults() {
            list.asker().differs(&format!("memory that no call made: {op:?}: {fault}"));
        }
    }
}

/// Writes the file of what memory holds, and salvages it over the same memory with some bytes changed: then the levels are
/// right.
fn salvages(port: &mut Port, list: &mut List, rng: &mut Rng) {
    let (unit, len) = (port.unit(), port.len());
    let count = file::length(unit, len);
    let capacity = (len + rng.below(3)).max(1);
    let mut ops = vec![Op::Write { output: count }, Op::Lend(need(unit, capacity))];
    for _ in 0..rng.below(4) {
        let (at, byte) = (rng.below(count), rng.number() as u8);
        ops.push(Op::PutFile { at, byte });
    }
    let end = count - rng.pick(&[0, 0, 1, 512]);
    for (capacity, list) in [(len.saturating_sub(1), 8), (capacity, 1), (capacity, 8)] {
        ops.push(Op::Salvage { capacity, count: end, list });
    }
    for op in ops {
        port.take(&op);
        for fault in port.faults() {
            list.asker().differs(&format!("memory that no call made: {op:?}: {fault}"));
        }
    }
}

/// The same question of the service. A place before the first sample becomes one far behind the last.
fn of_service(ask: Ask, mark: u64) -> Op {
    let place = |place: i64| mark.wrapping_add_signed(place);
    match ask {
        Ask::Next { mask, from } => Op::Next { mask, from: place(from) },
        Ask::Prev { mask, from } => Op::Prev { mask, from: place(from) },
        Ask::Burst { mask, sample, max_gap, tolerance, budget } => {
            Op::Burst(Burst { mask, sample: place(sample), max_gap, tolerance, budget })
        }
        _ => unreachable!("no search: {ask:?}"),
    }
}
