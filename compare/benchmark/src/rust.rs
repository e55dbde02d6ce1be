//! The unchanged Rust.

use crate::side::{filed, timed, turned, Side, Timed};
use crate::work::{
    AllBursts, Appends, Bursts, Encoder, Filing, Pushes, Ranges, Row, Samples, Wait, Walk, GRANT,
};
use crate::{plain, plain_file};
use edgewise::capture::{Capture, Node, Snapshot};
use edgewise::trigger::{Condition, Feeder, TriggerTerm};
use std::cell::RefCell;
use std::hint::black_box;
use std::sync::Arc;

pub struct Rust {
    snapshot: Snapshot,
    /// Where a plain writer writes, again in each round.
    output: RefCell<Vec<u8>>,
}

impl Rust {
    pub fn new() -> Rust {
        Rust { snapshot: Snapshot::empty(), output: RefCell::default() }
    }
}

const NONE: &str = "none";
const ALLOCATED: &str = "allocated in the call, not cleared";
const CLEARED: &str = "allocated in the call, cleared";
const SCAN: &str = "none, a plain scan";
const WRITER: &str = "a plain writer's, written before, not cleared";

fn capture(unit: usize) -> Capture {
    Capture::new(1, 8 * unit)
}

impl Side for Rust {
    fn hold(&mut self, samples: &Samples) {
        let capture = capture(samples.unit);
        capture.append(&samples.bytes);
        self.snapshot = capture.snapshot();
    }

    fn append(&self, work: &Appends) -> Option<Timed> {
        let Samples { unit, bytes } = work.samples;
        let capture = capture(*unit);
        timed(ALLOCATED, || {
            for push in bytes.chunks(work.push * unit) {
                capture.append(push);
            }
            (work.samples.len(), capture.len())
        })
    }

    fn push(&self, work: &Pushes) -> Option<Timed> {
        let Samples { unit, bytes } = work.samples;
        let capture = Arc::new(capture(*unit));
        let term = |condition| vec![TriggerTerm { channel: 0, condition }];
        let terms = match work.wait {
            Wait::Nothing => vec![],
            Wait::Rising => term(Condition::Rising),
            Wait::Edge => term(Condition::Edge),
        };
        let mut feeder = Feeder::new(capture.clone(), *unit, 0, &terms, 0.0, work.pre);
        timed(ALLOCATED, || {
            for push in bytes.chunks(work.push * unit) {
                feeder.push(push);
            }
            (work.samples.len(), capture.len())
        })
    }

    fn next_change(&self, work: &Walk) -> Option<Timed> {
        timed(NONE, || {
            let (mut at, mut count, mut sum) = (0, 0, 0);
            while let Some(place) = self.snapshot.next_change(work.mask, at) {
                at = place;
                count += 1;
                sum += place;
            }
            (count, sum)
        })
    }

    fn prev_change(&self, work: &Walk) -> Option<Timed> {
        timed(NONE, || {
            let (mut at, mut count, mut sum) = (work.len, 0, 0);
            while let Some(place) = self.snapshot.prev_change(work.mask, at) {
                at = place - 1;
                count += 1;
                sum += place;
            }
            (count, sum)
        })
    }

    fn summary(&self, work: &Ranges) -> Option<Timed> {
        timed(NONE, || {
            let node = |&a: &u64| self.snapshot.summary(a, a + work.len).unwrap_or_default();
            let sum = |n: Node| n.first as u64 + n.last as u64 + n.mask as u64;
            (work.count(), work.starts.iter().map(node).map(sum).sum())
        })
    }

    fn samples(&self, work: &Ranges) -> Option<Timed> {
        timed(ALLOCATED, || {
            let last = |&a: &u64| self.snapshot.samples(a, work.len)[work.len as usize - 1];
            let sum = work.starts.iter().map(last).map(u64::from).sum();
            (work.count() * work.len, sum)
        })
    }

    fn burst_at(&self, work: &Bursts) -> Option<Timed> {
        timed(NONE, || {
            let ask = |&place: &u64| {
                let budget = work.budget as usize;
                let found = self.snapshot.burst_at(0xFFFF, place, work.max_gap, 8, budget);
                found.map_or(0, |(first, last)| first + last)
            };
            (work.places.count(), work.places.starts.iter().map(ask).sum())
        })
    }

    fn all_bursts(&self, work: &AllBursts) -> Option<Timed> {
        timed(NONE, || {
            let (mut at, mut count, mut sum) = (0, 0, 0);
            while let Some(place) = self.snapshot.next_change(0xFFFF, at) {
                let found = self.snapshot.burst_at(0xFFFF, place, work.max_gap, 0, usize::MAX);
                let [first, last] = found.map_or([0, place], |(first, last)| [first, last]);
                count += found.is_some() as u64;
                sum += first + last;
                at = last;
            }
            (count, sum)
        })
    }

    fn render(&self, work: &Row) -> Option<Timed> {
        timed(CLEARED, || {
            let row = self.snapshot.render(work.start, work.spp, work.width as usize);
            (work.width, row.into_iter().map(u64::from).sum())
        })
    }

    /// It has no such call: a plain scan stands in its place.
    fn encoder(&self, work: &Encoder) -> Option<Timed> {
        timed(SCAN, || {
            let (position, counts) = plain::encoder(work.samples, work.lines);
            (work.samples.len(), turned(position, counts))
        })
    }

    /// It has no such call: a plain writer stands in its place.
    fn write(&self, work: &Filing) -> Option<Timed> {
        let Samples { unit, bytes } = work.samples;
        let mut output = self.output.borrow_mut();
        output.resize(plain_file::length(bytes.len()), 0xA5);
        let timed = timed(WRITER, || {
            for _ in 0..work.times {
                plain_file::write(*unit, Some(work.mark()), black_box(bytes), &mut output);
            }
            (work.count(), 0)
        })?;
        Some(Timed { sum: filed(&output), ..timed })
    }

    // It has no reader for mills: these are its own calls, and their answers are cut down.

    fn mill_next_change(&self, work: &Walk) -> Option<Timed> {
        self.next_change(work)
    }

    fn mill_summary(&self, work: &Ranges) -> Option<Timed> {
        timed(NONE, || {
            let node = |&a: &u64| self.snapshot.summary(a, a + work.len).unwrap_or_default();
            let shown = |n: Node| [n.first, n.last, n.mask].map(|v| (v & GRANT) as u64);
            let sum = work.starts.iter().map(node).map(|n| shown(n).iter().sum::<u64>()).sum();
            (work.count(), sum)
        })
    }

    fn mill_render(&self, work: &Row) -> Option<Timed> {
        timed(CLEARED, || {
            let row = self.snapshot.render(work.start, work.spp, work.width as usize);
            (work.width, row.into_iter().map(|v| (v & GRANT) as u64).sum())
        })
    }

    fn mill_encoder(&self, work: &Encoder) -> Option<Timed> {
        self.encoder(work)
    }
}
