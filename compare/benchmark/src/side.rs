//! A side of the benchmark. Each function does one work and says how long it took;
//! a side that lacks an operation leaves its function as it stands here.

use crate::work::{
    Across, AllBursts, Appends, Bursts, Encoder, Filing, Pushes, Ranges, Row, Salvaging, Samples,
    Walk,
};
use std::time::{Duration, Instant};

pub struct Timed {
    pub time: Duration,
    /// Samples stored, copied, replayed or filed, changes found, bursts listed, calls made, pixels drawn.
    pub count: u64,
    /// A sum over the answers: equal on both sides, and nothing is optimised away.
    pub sum: u64,
    /// Which memory the operation filled, and whether it was cleared first.
    pub buffers: &'static str,
}

#[allow(unused_variables)]
pub trait Side {
    /// Makes the capture that the questions are about. Not timed.
    fn hold(&mut self, samples: &Samples) {}

    fn append(&self, work: &Appends) -> Option<Timed> {
        None
    }

    fn push(&self, work: &Pushes) -> Option<Timed> {
        None
    }

    fn next_change(&self, work: &Walk) -> Option<Timed> {
        None
    }

    fn prev_change(&self, work: &Walk) -> Option<Timed> {
        None
    }

    /// From change to change.
    fn across(&self, work: &Across) -> Option<Timed> {
        None
    }

    /// The same, counted by its stretches.
    fn crossed(&self, work: &Across) -> Option<Timed> {
        let count = work.stretches.len() as u64 / 2;
        self.across(work).map(|timed| Timed { count, ..timed })
    }

    /// A find for each stretch: the ordinary search from the place behind it to the next change, or backward from the place
    /// before it.
    fn finds(&self, work: &Across) -> Option<Timed> {
        None
    }

    /// The first search alone, so many times; it finds a change at once. Counted by the stretches.
    fn first(&self, work: &Across, times: u64) -> Option<Timed> {
        None
    }

    fn summary(&self, work: &Ranges) -> Option<Timed> {
        None
    }

    fn density(&self, work: &Ranges) -> Option<Timed> {
        None
    }

    fn samples(&self, work: &Ranges) -> Option<Timed> {
        None
    }

    fn burst_at(&self, work: &Bursts) -> Option<Timed> {
        None
    }

    fn all_bursts(&self, work: &AllBursts) -> Option<Timed> {
        None
    }

    fn render(&self, work: &Row) -> Option<Timed> {
        None
    }

    fn encoder(&self, work: &Encoder) -> Option<Timed> {
        None
    }

    /// The file of the capture that is held, into memory that was written before.
    fn write(&self, work: &Filing) -> Option<Timed> {
        None
    }

    /// That file, into a new store.
    fn read(&self, work: &Filing) -> Option<Timed> {
        None
    }

    /// Its samples appended to a new store, and one plain pass of the check over the file.
    fn append_and_check(&self, work: &Filing) -> Option<Timed> {
        None
    }

    /// That file with bad blocks, into a new store.
    fn salvage(&self, work: &Salvaging) -> Option<Timed> {
        None
    }

    // The same by a mill's reader: lines of GRANT, places from the middle of the capture; an encoder by one who may see no
    // other line.

    fn mill_next_change(&self, work: &Walk) -> Option<Timed> {
        None
    }

    fn mill_summary(&self, work: &Ranges) -> Option<Timed> {
        None
    }

    fn mill_render(&self, work: &Row) -> Option<Timed> {
        None
    }

    fn mill_encoder(&self, work: &Encoder) -> Option<Timed> {
        None
    }
}

/// What an encoder comes to as one number.
pub fn turned(position: i64, counts: [u64; 3]) -> u64 {
    counts.into_iter().fold(position as u64, |sum, n| sum.wrapping_mul(257).wrapping_add(n))
}

/// A file as one number.
pub fn filed(file: &[u8]) -> u64 {
    file.iter()
        .fold(file.len() as u64, |sum, &byte| sum.wrapping_mul(257).wrapping_add(byte as u64))
}

/// Times a work that gives its count and its sum.
pub fn timed(buffers: &'static str, work: impl FnOnce() -> (u64, u64)) -> Option<Timed> {
    let begun = Instant::now();
    let (count, sum) = work();
    Some(Timed { time: begun.elapsed(), count, sum, buffers })
}
