//! The port as a side, over lent memory that is filled with a pattern first.
//! Beside it stands what the calls must leave there; whatever else changes is a fault.

mod file;
mod memory;
mod mill;
mod recorder;
mod salvage;
mod unknown;
mod walk;

use crate::digest::digest;
use crate::document::rules::Turns;
use crate::document::{listed, optional, refusals, turned};
use crate::file_memory::FileMemory;
use crate::node::{joined, span, Node};
use crate::op::{Burst, Lent, Op, Recorder, Store, View, Way};
use crate::side::{Answer, Side};
use memory::{pattern, Memory, GUARD};
use port::{out, record, Asked, Feeder, Record, NONE};
use recorder::Recording;
use walk::{Walk, Walked, MOST};

/// Memory up to this size is compared whole after every call, larger memory now and then.
const SMALL: usize = 20_000;
const RARELY: u64 = 50;

/// What stands behind the pointer to a count of nodes before a call. No count is that high.
const UNREAD: usize = usize::MAX / 3;

/// What stands behind the pointer to a count of changes before a call.
const UNCOUNTED: u32 = 0x9E37_79B9;

#[derive(Default)]
pub struct Port {
    record: Record,
    /// A recorder's numbers; of those that are its store's, `record` has the present ones.
    own: Feeder,
    /// What the recorder, if the record is one's, was given.
    recording: Option<Recording>,
    lent: Lent,
    memory: Memory,
    /// What memory must hold.
    right: Memory,
    pub files: FileMemory,
    /// Whether calls alone made the record and the levels.
    made: bool,
    /// The nodes that the last call read, where it was a search or a burst and not refused.
    pub read: Option<usize>,
    /// Counts of nodes held against the walk.
    pub counts: u64,
    /// Counts of changes held against the nodes that memory holds, and how many of them are cut.
    pub densities: u64,
    pub cut: u64,
    /// Encoders replayed.
    pub turns: u64,
    /// Files written, and files read.
    pub writes: u64,
    pub reads: u64,
    /// Files salvaged, and the numbers that the last one left in the list.
    pub salvages: u64,
    stretches: Vec<usize>,
    /// Searches across unknown stretches, and how many of them had none and were held against the ordinary search.
    pub across: u64,
    pub ordinary: u64,
    calls: u64,
    faults: Vec<String>,
}

impl Side for Port {
    fn take(&mut self, op: &Op) -> Option<Answer> {
        match *op {
            Op::Lend(lent) => self.lend(lent),
            // Any number but 0 says that there is a mark; without one the last number says nothing.
            Op::Record(Store { unit, capacity, len, mark }) => {
                let (marked, mark) = mark.map_or((0, 7), |mark| (3, mark));
                for (at, number) in [
                    (record::UNIT, unit),
                    (record::CAPACITY, capacity),
                    (record::LEN, len),
                    (record::MARKED, marked),
                    (record::MARK, mark),
                ] {
                    self.record[at] = number as usize;
                }
            }
            Op::Feeder(Recorder { limit, pre, kept, place }) => {
                for (at, number) in [
                    (port::recorder::LIMIT, limit),
                    (port::recorder::PRE, pre),
                    (port::recorder::RING_PLACE, place),
                    (port::recorder::KEPT, kept),
                ] {
                    self.own[at] = number as usize;
                }
            }
            Op::Put { level, index, value } => {
                self.made = false;
                for memory in [&mut self.memory, &mut self.right] {
                    memory.levels[level as usize - 1][index as usize] = value;
                }
            }
            Op::PutFile { at, byte } => self.files.put(at as usize, byte),
            _ => {
                self.read = None;
                let before = (self.record, self.own);
                let answer = self.answer(op)?;
                let changes = op.begins()
                    || matches!(
                        op,
                        Op::Append(_) | Op::Push(_) | Op::Read { .. } | Op::Salvage { .. }
                    );
                if !(changes && answer.is_ok()) {
                    self.same("record", before, (self.record, self.own));
                }
                self.compare(op.begins());
                return Some(answer);
            }
        }
        None
    }
}

impl Port {
    /// The faults since the last call of this.
    pub fn faults(&mut self) -> Vec<String> {
        std::mem::take(&mut self.faults)
    }

    pub fn unit(&self) -> u64 {
        self.record[record::UNIT] as u64
    }

    /// The record's len.
    pub fn len(&self) -> u64 {
        self.record[record::LEN] as u64
    }

    /// What stands behind the stored samples, as a level's last node says; level 0 are the samples.
    pub fn last(&self, level: u32) -> Option<u16> {
        let number = self.len().checked_sub(1)? / span(level);
        let unit = self.record[record::UNIT];
        Some(self.memory.node(unit, level as usize, number as usize).last)
    }

    fn answer(&mut self, op: &Op) -> Option<Answer> {
        Some(match *op {
            Op::Capture { channels, capacity } => self.capture(channels, capacity),
            Op::Append(ref feed) => {
                let mut last = Ok(Vec::new());
                for piece in feed.pieces(self.record[record::UNIT] as u64) {
                    last = self.append(&piece);
                }
                last
            }
            Op::Start(ref settings) => self.start(settings),
            Op::Push(ref feed) => {
                let mut last = Ok(Vec::new());
                for piece in feed.pieces(self.record[record::UNIT] as u64) {
                    last = self.push(&piece);
                }
                last
            }
            Op::State => self.state(),
            Op::FileLen => self.file_len(),
            Op::Write { output } => self.write(output),
            Op::Read { capacity, count } => self.read(capacity, count),
            Op::Says { count } => self.says(count),
            Op::Salvage { capacity, count, list } => self.salvage(capacity, count, list),
            Op::Run => self.run(),
            Op::Get(i) => {
                let mut value = 0xA5C3;
                let code = port::get(&self.record, self.lent(), i as usize, &mut value);
                self.kept(code, "value", 0xA5C3, value);
                said(code, || vec![value as u64])
            }
            Op::Samples { start, count, output } => {
                let (start, count) = (start as usize, count as usize);
                self.samples(output, |record, lent, output, copied| {
                    port::samples(record, lent, start, count, output, copied)
                })
            }
            Op::Raw(chunk) => {
                let bytes = port::raw(&self.record, self.lent(), chunk as usize);
                Ok(vec![bytes.len() as u64, digest(bytes.iter().map(|&b| b as u64))])
            }
            Op::Whole => {
                let (mut level, mut number) = (71, 72);
                let code = port::whole(&self.record, self.lent(), &mut level, &mut number);
                if code != NONE {
                    self.same("wrong node", (71, 72), (level, number));
                }
                match code {
                    NONE => Ok(vec![0, level as u64, number as u64]),
                    _ => said(code, || vec![1]),
                }
            }
            Op::Next { mask, from } => self.place(port::next_change, Way::Next, mask, from),
            Op::Prev { mask, from } => self.place(port::prev_change, Way::Prev, mask, from),
            Op::Summary { a, b } => self.summary(a, b),
            Op::Density { a, b } => self.density(a, b),
            Op::Burst(burst) => self.burst(burst),
            Op::Render(view) => self.render(view, render_of(view), listed),
            Op::RenderDigest(view) => self
                .render(view, render_of(view), |row| vec![digest(row.iter().map(|&v| v as u64))]),
            Op::Encoder { a, b } => self.encoder(|record, lent, position, counts| {
                port::encoder(record, lent, a as usize, b as usize, position, counts)
            }),
            Op::Across(ref across) => self.across(across),
            Op::Mill(mill) => self.mill(mill),
            _ => return None,
        })
    }

    fn capture(&mut self, channels: u64, capacity: u64) -> Answer {
        let before = [81, 82, 83, 84, 85];
        let mut sizes = before;
        let code = port::needs(channels as usize, capacity as usize, &mut sizes);
        self.kept(code, "sizes", before, sizes);
        if code == 0 {
            let need = refusals::need(1 + (channels > 8) as u64, capacity);
            let [one, two, three, four] = need.levels;
            let right = [need.samples, one, two, three, four].map(|n| n as usize);
            self.same("needs", right, sizes);
        }
        let mut record = self.record;
        let code = port::start(channels as usize, capacity as usize, self.lent(), &mut record);
        self.kept(code, "record", self.record, record);
        if code == 0 {
            self.recording = None;
            self.made = true;
        }
        self.record = record;
        said(code, || vec![record[record::UNIT] as u64])
    }

    fn append(&mut self, bytes: &[u8]) -> Answer {
        let mut record = self.record;
        let (unit, len) = (record[record::UNIT], record[record::LEN]);
        let code = port::append(&mut record, self.memory.lent_mut(&self.lent).0, bytes);
        self.kept(code, "record", self.record, record);
        if code == 0 {
            self.right.append(unit, len, bytes);
            self.record[record::LEN] = len + bytes.len() / unit;
            self.same("record", self.record, record);
        }
        said(code, || vec![record[record::LEN] as u64])
    }

    /// The stored samples by several calls.
    fn run(&mut self) -> Answer {
        let [len, marked, mark] =
            [record::LEN, record::MARKED, record::MARK].map(|at| self.record[at]);
        let mut piece = vec![0; 65_536];
        let mut all = Vec::new();
        while all.len() < len {
            let mut copied = 0;
            let (record, count) = (&self.record, piece.len());
            let code =
                port::samples(record, self.lent(), all.len(), count, &mut piece, &mut copied);
            if code != 0 || copied == 0 {
                self.faults.push(format!("samples of a run: {code}, {copied} copied"));
                break;
            }
            all.extend_from_slice(&piece[..copied]);
        }
        let digest = digest(all.into_iter().map(u64::from));
        let mark = if marked == 0 { 0 } else { mark };
        let armed = self.recording.is_some() && self.waits();
        Ok(vec![len as u64, (marked != 0) as u64, mark as u64, armed as u64, digest])
    }

    /// Samples to an output of this length, by the service's call or a mill's.
    fn samples(
        &mut self,
        output: u64,
        call: impl Fn(&Record, port::Lent, &mut [u16], &mut usize) -> u32,
    ) -> Answer {
        let room = output as usize;
        let (before, mut after) = patterned(room);
        let mut copied = 91;
        let code = call(&self.record, self.lent(), &mut after[..room], &mut copied);
        self.kept(code, "count copied", 91, copied);
        let copied = if code == 0 { copied.min(room) } else { 0 };
        if before[copied..] != after[copied..] {
            self.faults.push("output past the copied samples changed".into());
        }
        said(code, || listed(&after[..copied]))
    }

    /// The answer is without the count, which the Rust does not have. It and the node are those of the nodes that memory
    /// holds, whatever these are.
    fn summary(&mut self, a: u64, b: u64) -> Answer {
        let before = ([0xA5C3, 1, 2], UNCOUNTED);
        let (mut node, mut count) = before;
        let (from, to) = (a as usize, b as usize);
        let code = port::summary(&self.record, self.lent(), from, to, &mut node, &mut count);
        self.kept(code, "node", before, (node, count));
        if code == 0 || code == NONE {
            let [first, last, toggles] = node;
            let is = (code == 0).then_some(Node { first, last, toggles, count });
            let right = self.joined(a, b);
            self.same("summary", right, is);
            self.held(right);
        }
        found(code, node.map(u64::from))
    }

    fn density(&mut self, a: u64, b: u64) -> Answer {
        let mut count = UNCOUNTED;
        let code = port::density(&self.record, self.lent(), a as usize, b as usize, &mut count);
        self.kept(code, "count of changes", UNCOUNTED, count);
        if code == 0 {
            let right = self.joined(a, b);
            self.same("count of changes", right.map_or(0, |node| node.count), count);
            self.held(right);
        }
        said(code, || vec![count as u64])
    }

    fn held(&mut self, right: Option<Node>) {
        self.densities += 1;
        self.cut += right.is_some_and(|node| node.count == u32::MAX) as u64;
    }

    /// The node of a range by the nodes that memory holds.
    fn joined(&self, a: u64, b: u64) -> Option<Node> {
        let unit = self.record[record::UNIT];
        joined(a, b, self.len(), |level, number| {
            self.memory.node(unit, level as usize, number as usize)
        })
    }

    fn burst(&mut self, burst: Burst) -> Answer {
        let Burst { mask, sample, max_gap, tolerance, budget } = burst;
        let [sample, max_gap, tolerance, budget] =
            [sample, max_gap, tolerance, budget].map(|n| n as usize);
        let asked = Asked { mask, sample, max_gap, tolerance, budget };
        let before = [51, 52, 53, 54];
        let (mut ends, mut read) = (before, UNREAD);
        let code = port::burst_at(&self.record, self.lent(), asked, &mut ends, &mut read);
        self.kept(code, "burst", before, ends);
        let ends = ends.map(|n| n as u64);
        self.searched(code, ends, read, |port| port.walk(mask).burst(&burst))
    }

    /// A view drawn by the service's call or a mill's.
    fn render(
        &mut self,
        view: View,
        call: impl Fn(&Record, port::Lent, &mut [u16]) -> u32,
        row: impl Fn(&[u16]) -> Vec<u64>,
    ) -> Answer {
        let (width, room) = (view.width as usize, view.output as usize);
        let (before, mut after) = patterned(room);
        let code = call(&self.record, self.lent(), &mut after[..room]);
        let drawn = if code == 0 { (2 * width).min(room) } else { 0 };
        if before[drawn..] != after[drawn..] {
            self.faults.push("output past the pixels changed".into());
        }
        said(code, || row(&after[..drawn]))
    }

    /// An encoder by the service's call or a mill's. Over any memory it moves by its steps, of which each place has at most
    /// one.
    fn encoder(
        &mut self,
        call: impl Fn(&Record, port::Lent, &mut i64, &mut [usize; 3]) -> u32,
    ) -> Answer {
        let before = (-41, [42, 43, 44]);
        let (mut position, mut counts) = before;
        let code = call(&self.record, self.lent(), &mut position, &mut counts);
        self.kept(code, "encoder", before, (position, counts));
        let [forward, backward, skipped] =
            [out::ENCODER_FORWARD, out::ENCODER_BACKWARD, out::ENCODER_SKIPPED]
                .map(|at| counts[at] as u64);
        if code == 0 {
            self.same("position", forward as i128 - backward as i128, position as i128);
            let steps = forward as u128 + backward as u128 + skipped as u128;
            if steps > self.len().saturating_sub(1) as u128 {
                self.faults.push(format!("{steps} steps in {} samples", self.len()));
            }
            self.turns += 1;
        }
        said(code, || turned(Turns { position, forward, backward, skipped }))
    }

    fn place(
        &mut self,
        call: impl Fn(&Record, port::Lent, u16, usize, &mut usize, &mut usize) -> u32,
        way: Way,
        mask: u16,
        from: u64,
    ) -> Answer {
        let (mut place, mut read) = (61, UNREAD);
        let code = call(&self.record, self.lent(), mask, from as usize, &mut place, &mut read);
        self.kept(code, "place", 61, place);
        self.searched(code, [place as u64], read, |port| {
            port.walk(mask).search(way, from).map(|place| [place])
        })
    }

    /// The walk over memory as it is lent.
    fn walk(&self, mask: u16) -> Walk<'_> {
        Walk { memory: &self.memory, unit: self.record[record::UNIT], len: self.len(), mask }
    }

    /// The answer of a search or a burst, which is the walk's over any memory, and so is the count of nodes read.
    fn searched<const N: usize>(
        &mut self,
        code: u32,
        values: [u64; N],
        read: usize,
        walk: impl Fn(&Port) -> Walked<[u64; N]>,
    ) -> Answer {
        if code != 0 && code != NONE {
            self.same("count of nodes", UNREAD, read);
            return Err(code as u64);
        }
        let walked = walk(self);
        self.same("find", walked.found, (code == 0).then_some(values));
        self.same("count of nodes", walked.steps, read as u64);
        if self.made && read as u64 > MOST * walked.chunks {
            self.faults.push(format!("{read} nodes read in {} chunks", walked.chunks));
        }
        self.read = Some(read);
        self.counts += 1;
        found(code, values)
    }

    fn lend(&mut self, lent: Lent) {
        // The last look at a large capture.
        if self.lent.samples as usize > SMALL {
            self.compare_lent();
        }
        self.lent = lent;
        for memory in [&mut self.memory, &mut self.right] {
            memory.make(&lent);
        }
    }

    fn lent(&self) -> port::Lent<'_> {
        let Memory { samples, levels, .. } = &self.memory;
        let [a, b, c, d] = self.lent.levels.map(|n| n as usize);
        let [l1, l2, l3, l4] = levels;
        let levels = [&l1[..a], &l2[..b], &l3[..c], &l4[..d]];
        port::Lent { samples: &samples[..self.lent.samples as usize], levels }
    }

    /// What stands behind an out pointer stays unless the call answers.
    fn kept<T: PartialEq + std::fmt::Debug>(&mut self, code: u32, what: &str, old: T, new: T) {
        if code != 0 {
            self.same(what, old, new);
        }
    }

    fn same<T: PartialEq + std::fmt::Debug>(&mut self, what: &str, right: T, is: T) {
        if right != is {
            self.faults.push(format!("{what} is {is:?} and should be {right:?}"));
        }
    }

    /// Holds memory against what it must be: lent memory, or now and then, where another capture begins, all of it.
    fn compare(&mut self, begins: bool) {
        self.calls += 1;
        let seldom = self.calls.is_multiple_of(RARELY);
        if begins && seldom {
            let same = self.memory == self.right;
            self.note(same);
        } else if seldom || self.lent.samples as usize <= SMALL {
            self.compare_lent();
        }
    }

    fn compare_lent(&mut self) {
        let bytes = self.lent.samples as usize + GUARD;
        let level = |l: usize| {
            let end = self.lent.levels[l] as usize + GUARD;
            self.memory.levels[l][..end] == self.right.levels[l][..end]
        };
        let ring = self.lent.ring as usize + GUARD;
        let same = self.memory.samples[..bytes] == self.right.samples[..bytes]
            && self.memory.ring[..ring] == self.right.ring[..ring]
            && (0..4).all(level);
        self.note(same);
    }

    fn note(&mut self, same: bool) {
        if !same {
            let place = self.memory.first_difference(&self.right);
            self.faults.push(format!("memory differs: {place}"));
            self.right = self.memory.clone();
        }
    }
}

fn render_of(view: View) -> impl Fn(&Record, port::Lent, &mut [u16]) -> u32 {
    let View { start, spp, width, .. } = view;
    move |record, lent, output| port::render(record, lent, start, spp, width as usize, output)
}

/// The values, or the number of the refusal.
fn said(code: u32, values: impl FnOnce() -> Vec<u64>) -> Answer {
    match code {
        0 => Ok(values()),
        number => Err(number as u64),
    }
}

fn found<const N: usize>(code: u32, values: [u64; N]) -> Answer {
    match code {
        NONE => Ok(optional::<N>(None)),
        _ => said(code, || optional(Some(values))),
    }
}

/// An output of this length with its guard, as it is and as it stays.
fn patterned(room: usize) -> (Vec<u16>, Vec<u16>) {
    let output: Vec<u16> = (0..room + GUARD).map(|i| pattern(i) as u16 ^ 0x5A00).collect();
    (output.clone(), output)
}
