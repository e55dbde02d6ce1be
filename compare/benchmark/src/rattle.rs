//! The port, over memory that it is lent. Without the static library it has no operation. The counts of nodes read, and those
//! of the changes in a summary, are thrown away: the Rust has none.

use crate::plain_file;
use crate::side::{filed, timed, turned, Side, Timed};
use crate::work::{
    Across, AllBursts, Appends, Bursts, Encoder, Filing, Pushes, Ranges, Row, Salvaging, Samples,
    Sort, Wait, Walk, GRANT,
};
use port::{file, mill, out, record, unknown, Asked, Feeder, Lent, LentMut, Record, Settings};
use std::cell::RefCell;
use std::hint::black_box;

#[derive(Default)]
struct Capture {
    record: Record,
    samples: Vec<u8>,
    levels: [Vec<u16>; 4],
}

#[derive(Default)]
pub struct Rattle {
    held: Capture,
    /// What is appended to, and where samples are copied: lent again in each round.
    appended: RefCell<Capture>,
    output: RefCell<Vec<u16>>,
    ring: RefCell<Vec<u8>>,
    file: RefCell<Vec<u8>>,
}

const NONE: &str = "none";
const LENT: &str = "lent, filled once before, not cleared";

impl Capture {
    /// A capture with nothing in it. Memory that is there already stays as it is.
    fn start(&mut self, unit: usize, capacity: usize) {
        let mut sizes = [0; 5];
        assert_eq!(port::needs(8 * unit, capacity, &mut sizes), 0);
        let [samples, levels @ ..] = sizes;
        self.samples.resize(samples, 0xA5);
        for (level, size) in self.levels.iter_mut().zip(levels) {
            level.resize(size, 0xA5A5);
        }
        let mut record = self.record;
        assert_eq!(port::start(8 * unit, capacity, self.lent(), &mut record), 0);
        self.record = record;
    }

    fn append(&mut self, bytes: &[u8]) {
        let [l1, l2, l3, l4] = &mut self.levels;
        let lent = LentMut { samples: &mut self.samples, levels: [l1, l2, l3, l4] };
        assert_eq!(port::append(&mut self.record, lent, bytes), 0);
    }

    fn read(&mut self, file: &[u8]) {
        let [l1, l2, l3, l4] = &mut self.levels;
        let lent = LentMut { samples: &mut self.samples, levels: [l1, l2, l3, l4] };
        let capacity = self.record[record::CAPACITY];
        assert_eq!(file::read(capacity, file, lent, &mut self.record), 0);
    }

    /// How many stretches are unknown.
    fn salvage(&mut self, file: &[u8], stretches: &mut [usize]) -> usize {
        let [l1, l2, l3, l4] = &mut self.levels;
        let lent = LentMut { samples: &mut self.samples, levels: [l1, l2, l3, l4] };
        let (capacity, mut counts) = (self.record[record::CAPACITY], [0; 2]);
        let code = file::salvage(capacity, file, lent, stretches, &mut self.record, &mut counts);
        assert_eq!(code, 0);
        counts[out::SALVAGED_STRETCHES]
    }

    /// A recorder over this memory that keeps `pre` samples while it waits.
    fn record(&self, unit: usize, capacity: usize, wait: Wait, pre: u64, ring: &[u8]) -> Feeder {
        let terms: &[u8] = match wait {
            Wait::Nothing => &[],
            Wait::Rising => &[0, 0],
            Wait::Edge => &[0, 2],
        };
        let (channels, rate) = (8 * unit, pre as usize);
        let settings =
            Settings { channels, capacity, limit: 0, terms, seconds: true, wish: 1.0, rate };
        let (mut feeder, mut cut) = ([0; 17], 0);
        assert_eq!(port::feeder_start(settings, self.lent(), ring, &mut feeder, &mut cut), 0);
        feeder
    }

    fn push(&mut self, feeder: &mut Feeder, ring: &mut [u8], bytes: &[u8]) {
        let [l1, l2, l3, l4] = &mut self.levels;
        let lent = LentMut { samples: &mut self.samples, levels: [l1, l2, l3, l4] };
        assert_eq!(port::push(feeder, lent, ring, bytes), 0);
    }

    /// The record with a mark in the middle, and the mark.
    fn marked(&self) -> (Record, i64) {
        let (mut record, mark) = (self.record, self.record[record::LEN] / 2);
        (record[record::MARKED], record[record::MARK]) = (1, mark);
        (record, mark as i64)
    }

    fn lent(&self) -> Lent<'_> {
        let [l1, l2, l3, l4] = &self.levels;
        Lent { samples: &self.samples, levels: [l1, l2, l3, l4] }
    }
}

impl Side for Rattle {
    fn hold(&mut self, samples: &Samples) {
        if port::LINKED {
            self.held.start(samples.unit, samples.len() as usize);
            self.held.append(&samples.bytes);
        }
    }

    fn append(&self, work: &Appends) -> Option<Timed> {
        let Samples { unit, bytes } = work.samples;
        let mut capture = self.appended.borrow_mut();
        port::LINKED.then(|| capture.start(*unit, work.samples.len() as usize))?;
        timed(LENT, || {
            for push in bytes.chunks(work.push * unit) {
                capture.append(push);
            }
            (work.samples.len(), capture.record[record::LEN] as u64)
        })
    }

    fn push(&self, work: &Pushes) -> Option<Timed> {
        let Samples { unit, bytes } = work.samples;
        let mut capture = self.appended.borrow_mut();
        let capacity = work.samples.len() as usize;
        port::LINKED.then(|| capture.start(*unit, capacity))?;
        let mut ring = self.ring.borrow_mut();
        ring.resize(work.pre as usize * unit, 0xA5);
        let mut feeder = capture.record(*unit, capacity, work.wait, work.pre, &ring);
        timed(LENT, || {
            for push in bytes.chunks(work.push * unit) {
                capture.push(&mut feeder, &mut ring, push);
            }
            (work.samples.len(), feeder[record::LEN] as u64)
        })
    }

    fn next_change(&self, work: &Walk) -> Option<Timed> {
        let (record, lent) = (&self.held.record, self.held.lent());
        port::LINKED.then_some(())?;
        timed(NONE, || {
            forward(|from, at| port::next_change(record, lent, work.mask, from, at, &mut 0))
        })
    }

    fn prev_change(&self, work: &Walk) -> Option<Timed> {
        let (record, lent) = (&self.held.record, self.held.lent());
        port::LINKED.then_some(())?;
        let prev =
            |from, at: &mut usize| port::prev_change(record, lent, work.mask, from, at, &mut 0);
        timed(NONE, || backward(work.len, prev))
    }

    fn across(&self, work: &Across) -> Option<Timed> {
        let (record, lent) = (&self.held.record, self.held.lent());
        let Across { walk: Walk { mask, len }, ref stretches, .. } = *work;
        port::LINKED.then_some(())?;
        timed(NONE, || match (work.sort, work.back) {
            (Sort::Certain, false) => {
                forward(|from, at| unknown::next_certain(record, lent, stretches, mask, from, at))
            }
            (Sort::Certain, true) => backward(len, |from, at| {
                unknown::prev_certain(record, lent, stretches, mask, from, at)
            }),
            (Sort::Possible, false) => {
                forward(|from, at| unknown::next_possible(record, lent, stretches, mask, from, at))
            }
            (Sort::Possible, true) => backward(len, |from, at| {
                unknown::prev_possible(record, lent, stretches, mask, from, at)
            }),
        })
    }

    fn finds(&self, work: &Across) -> Option<Timed> {
        let (record, lent, mask) = (&self.held.record, self.held.lent(), work.walk.mask);
        port::LINKED.then_some(())?;
        timed(NONE, || {
            let find = |stretch: &[usize]| {
                let mut at = 0;
                let _ = match work.back {
                    false => {
                        let from = stretch[0] + stretch[1];
                        port::next_change(record, lent, mask, from, &mut at, &mut 0)
                    }
                    true => port::prev_change(record, lent, mask, stretch[0] - 1, &mut at, &mut 0),
                };
                at as u64
            };
            let sum = work.stretches.chunks(2).map(find).sum();
            (work.stretches.len() as u64 / 2, sum)
        })
    }

    fn first(&self, work: &Across, times: u64) -> Option<Timed> {
        let (record, lent, mask) = (&self.held.record, self.held.lent(), work.walk.mask);
        port::LINKED.then_some(())?;
        timed(NONE, || {
            let (mut at, mut sum) = (0, 0);
            for _ in 0..times {
                let list = black_box(&work.stretches);
                assert_eq!(unknown::next_certain(record, lent, list, mask, 0, &mut at), 0);
                sum += at as u64;
            }
            (times * work.stretches.len() as u64 / 2, sum)
        })
    }

    fn summary(&self, work: &Ranges) -> Option<Timed> {
        let (record, lent) = (&self.held.record, self.held.lent());
        port::LINKED.then_some(())?;
        timed(NONE, || {
            let mut node = [0; 3];
            let sum = |&a: &u64| {
                let b = (a + work.len) as usize;
                assert_eq!(port::summary(record, lent, a as usize, b, &mut node, &mut 0), 0);
                node.iter().map(|&n| n as u64).sum::<u64>()
            };
            (work.count(), work.starts.iter().map(sum).sum())
        })
    }

    fn density(&self, work: &Ranges) -> Option<Timed> {
        let (record, lent) = (&self.held.record, self.held.lent());
        port::LINKED.then_some(())?;
        timed(NONE, || {
            let mut count = 0;
            let sum = |&a: &u64| {
                let b = (a + work.len) as usize;
                assert_eq!(port::density(record, lent, a as usize, b, &mut count), 0);
                count as u64
            };
            (work.count(), work.starts.iter().map(sum).sum())
        })
    }

    fn samples(&self, work: &Ranges) -> Option<Timed> {
        let (record, lent) = (&self.held.record, self.held.lent());
        let mut output = self.output.borrow_mut();
        output.resize(work.len as usize, 0xA5A5);
        port::LINKED.then_some(())?;
        timed(LENT, || {
            let mut copied = 0;
            let last = |&a: &u64| {
                let count = work.len as usize;
                let code = port::samples(record, lent, a as usize, count, &mut output, &mut copied);
                assert_eq!((code, copied), (0, count));
                output[count - 1] as u64
            };
            let sum = work.starts.iter().map(last).sum();
            (work.count() * work.len, sum)
        })
    }

    fn burst_at(&self, work: &Bursts) -> Option<Timed> {
        let (record, lent) = (&self.held.record, self.held.lent());
        port::LINKED.then_some(())?;
        timed(NONE, || {
            let mut ends = [0; 4];
            let ask = |&place: &u64| {
                let [sample, max_gap, budget] =
                    [place, work.max_gap, work.budget].map(|n| n as usize);
                let asked = Asked { mask: 0xFFFF, sample, max_gap, tolerance: 8, budget };
                match port::burst_at(record, lent, asked, &mut ends, &mut 0) {
                    0 => (ends[out::BURST_FIRST] + ends[out::BURST_LAST]) as u64,
                    _ => 0,
                }
            };
            (work.places.count(), work.places.starts.iter().map(ask).sum())
        })
    }

    fn all_bursts(&self, work: &AllBursts) -> Option<Timed> {
        let (record, lent) = (&self.held.record, self.held.lent());
        port::LINKED.then_some(())?;
        timed(NONE, || {
            let (mut at, mut count, mut sum) = (0, 0, 0);
            let mut ends = [0; 4];
            while port::next_change(record, lent, 0xFFFF, at, &mut at, &mut 0) == 0 {
                let (sample, max_gap) = (at, work.max_gap as usize);
                let asked =
                    Asked { mask: 0xFFFF, sample, max_gap, tolerance: 0, budget: usize::MAX };
                if port::burst_at(record, lent, asked, &mut ends, &mut 0) == 0 {
                    count += 1;
                    sum += ends[out::BURST_FIRST] as u64;
                    at = ends[out::BURST_LAST];
                }
                sum += at as u64;
            }
            (count, sum)
        })
    }

    fn render(&self, work: &Row) -> Option<Timed> {
        let (record, lent) = (&self.held.record, self.held.lent());
        let mut output = self.output.borrow_mut();
        let (width, room) = (work.width as usize, 2 * work.width as usize);
        let held = output.len().max(room);
        output.resize(held, 0xA5A5);
        port::LINKED.then_some(())?;
        timed(LENT, || {
            let row = &mut output[..room];
            let code = port::render(record, lent, work.start, work.spp, width, row);
            assert_eq!(code, 0);
            (work.width, row.iter().map(|&n| n as u64).sum())
        })
    }

    fn encoder(&self, work: &Encoder) -> Option<Timed> {
        let ([a, b], record, lent) = (work.lines, &self.held.record, self.held.lent());
        port::LINKED.then_some(())?;
        timed(NONE, || {
            let (mut position, mut counts) = (0, [0; 3]);
            assert_eq!(port::encoder(record, lent, a, b, &mut position, &mut counts), 0);
            (work.samples.len(), turned(position, in_order(counts)))
        })
    }

    fn write(&self, work: &Filing) -> Option<Timed> {
        let ((record, _), lent) = (self.held.marked(), self.held.lent());
        let mut output = self.file.borrow_mut();
        output.resize(plain_file::length(work.samples.bytes.len()), 0xA5);
        port::LINKED.then_some(())?;
        let timed = timed(LENT, || {
            let mut len = 0;
            for _ in 0..work.times {
                assert_eq!(file::write(&record, lent, &mut output, &mut len), 0);
            }
            (work.count(), 0)
        })?;
        Some(Timed { sum: filed(&output), ..timed })
    }

    fn read(&self, work: &Filing) -> Option<Timed> {
        let mut capture = self.appended.borrow_mut();
        let file = self.prepared(work, &mut capture)?;
        timed(LENT, || {
            for _ in 0..work.times {
                capture.read(black_box(&file));
            }
            (work.count(), capture.record[record::LEN] as u64)
        })
    }

    fn append_and_check(&self, work: &Filing) -> Option<Timed> {
        let mut capture = self.appended.borrow_mut();
        let file = self.prepared(work, &mut capture)?;
        timed(LENT, || {
            for _ in 0..work.times {
                capture.record[record::LEN] = 0;
                capture.append(&work.samples.bytes);
                assert_eq!(plain_file::checked(black_box(&file)), file.len() / 512);
            }
            (work.count(), capture.record[record::LEN] as u64)
        })
    }

    fn salvage(&self, work: &Salvaging) -> Option<Timed> {
        let filing = work.filing;
        let mut capture = self.appended.borrow_mut();
        let mut file = self.prepared(filing, &mut capture)?;
        let bad = work.every.map_or(0, |every| plain_file::spoil(&mut file, every));
        let mut stretches = vec![0xA5; 2 * bad];
        timed(LENT, || {
            for _ in 0..filing.times {
                assert_eq!(capture.salvage(black_box(&file), &mut stretches), bad);
            }
            (filing.count(), capture.record[record::LEN] as u64)
        })
    }

    fn mill_next_change(&self, work: &Walk) -> Option<Timed> {
        let ((record, mark), lent) = (self.held.marked(), self.held.lent());
        port::LINKED.then_some(())?;
        timed(NONE, || {
            let (mut at, mut count, mut sum) = (-mark, 0, 0);
            while mill::next_change(&record, lent, GRANT, work.mask, at, &mut at, &mut 0) == 0 {
                count += 1;
                sum += (at + mark) as u64;
            }
            (count, sum)
        })
    }

    fn mill_summary(&self, work: &Ranges) -> Option<Timed> {
        let ((record, mark), lent) = (self.held.marked(), self.held.lent());
        port::LINKED.then_some(())?;
        timed(NONE, || {
            let mut node = [0; 3];
            let sum = |&a: &u64| {
                let a = a as i64 - mark;
                let b = a + work.len as i64;
                assert_eq!(mill::summary(&record, lent, GRANT, a, b, &mut node), 0);
                node.iter().map(|&n| n as u64).sum::<u64>()
            };
            (work.count(), work.starts.iter().map(sum).sum())
        })
    }

    fn mill_render(&self, work: &Row) -> Option<Timed> {
        let ((record, mark), lent) = (self.held.marked(), self.held.lent());
        let mut output = self.output.borrow_mut();
        let (width, room) = (work.width as usize, 2 * work.width as usize);
        let held = output.len().max(room);
        output.resize(held, 0xA5A5);
        port::LINKED.then_some(())?;
        timed(LENT, || {
            let row = &mut output[..room];
            let start = work.start - mark as f64;
            let code = mill::render(&record, lent, GRANT, start, work.spp, width, row);
            assert_eq!(code, 0);
            (work.width, row.iter().map(|&n| n as u64).sum())
        })
    }

    fn mill_encoder(&self, work: &Encoder) -> Option<Timed> {
        let ([a, b], record, lent) = (work.lines, &self.held.record, self.held.lent());
        let grant = 1 << a | 1 << b;
        port::LINKED.then_some(())?;
        timed(NONE, || {
            let (mut position, mut counts) = (0, [0; 3]);
            assert_eq!(mill::encoder(record, lent, grant, a, b, &mut position, &mut counts), 0);
            (work.samples.len(), turned(position, in_order(counts)))
        })
    }
}

impl Rattle {
    /// The file of a work, and a store for its samples.
    fn prepared(&self, work: &Filing, capture: &mut Capture) -> Option<Vec<u8>> {
        let Samples { unit, bytes } = work.samples;
        port::LINKED.then(|| capture.start(*unit, work.samples.len() as usize))?;
        let mut file = vec![0; plain_file::length(bytes.len())];
        plain_file::write(*unit, Some(work.mark()), bytes, &mut file);
        Some(file)
    }
}

/// From change to change: how many, and the sum of their places.
#[inline]
fn forward(next: impl Fn(usize, &mut usize) -> u32) -> (u64, u64) {
    let (mut at, mut count, mut sum) = (0, 0, 0);
    while next(at, &mut at) == 0 {
        count += 1;
        sum += at as u64;
    }
    (count, sum)
}

#[inline]
fn backward(len: u64, prev: impl Fn(usize, &mut usize) -> u32) -> (u64, u64) {
    let (mut at, mut count, mut sum) = (len as usize, 0, 0);
    while prev(at, &mut at) == 0 {
        count += 1;
        sum += at as u64;
        at -= 1;
    }
    (count, sum)
}

/// Forward, backward and skipped.
fn in_order(counts: [usize; 3]) -> [u64; 3] {
    [out::ENCODER_FORWARD, out::ENCODER_BACKWARD, out::ENCODER_SKIPPED].map(|at| counts[at] as u64)
}
