//! What both sides are given, the same for each.

use crate::plain_file;
use rng::Rng;

/// The lines that a mill sees.
pub const GRANT: u16 = 0x0F0F;

/// Samples of a capture, as bytes.
pub struct Samples {
    pub unit: usize,
    pub bytes: Vec<u8>,
}

impl Samples {
    pub fn len(&self) -> u64 {
        (self.bytes.len() / self.unit) as u64
    }

    /// One line, any of the unit's, changes every `gap` samples or so.
    pub fn with_changes(unit: usize, len: u64, gap: u64) -> Samples {
        let mut rng = Rng::new(gap);
        let mut bytes = Vec::new();
        let mut value = 0u16;
        let mut left = 0;
        for _ in 0..len {
            if left == 0 {
                value ^= 1 << rng.below(8 * unit as u64);
                left = 1 + gap / 2 + rng.below(gap);
            }
            left -= 1;
            bytes.extend(&value.to_le_bytes()[..unit]);
        }
        Samples { unit, bytes }
    }

    /// Samples in which line 1 is set wherever they are known, and any line changes every `gap` samples or so; zeros in the
    /// stretches. So line 1 changes where a stretch begins and where it ends, and no such change is certain.
    pub fn stretched(unit: usize, len: u64, gap: u64, stretches: &[usize]) -> Samples {
        let mut samples = Samples::with_changes(unit, len, gap);
        samples.bytes.iter_mut().step_by(unit).for_each(|byte| *byte |= 2);
        for stretch in stretches.chunks(2) {
            samples.bytes[stretch[0] * unit..][..stretch[1] * unit].fill(0);
        }
        samples
    }

    /// An encoder on two lines, with at least and at most so many samples from step to step, or no step at all. It turns back
    /// at times and seldom skips. Every 50 samples or so one of the other lines changes.
    pub fn turning(unit: usize, len: u64, [a, b]: [usize; 2], gap: Option<[u64; 2]>) -> Samples {
        let mut rng = Rng::new(gap.map_or(0, |[least, _]| least));
        let order = [0, 1 << a, 1 << a | 1 << b, 1 << b];
        let (mut quarter, mut turn, mut others) = (0, 1, 0u16);
        let (mut to_step, mut to_other) = (gap.map_or(len, |[least, _]| least), 50);
        let mut bytes = Vec::new();
        for _ in 0..len {
            if let (0, Some([least, most])) = (to_step, gap) {
                turn = if rng.once_in(20) { 4 - turn } else { turn };
                quarter += if rng.once_in(100) { 2 } else { turn };
                to_step = least + rng.below(most - least + 1);
            }
            if to_other == 0 {
                others ^= 1 << rng.below(8 * unit as u64) & !order[2];
                to_other = 25 + rng.below(51);
            }
            (to_step, to_other) = (to_step - 1, to_other - 1);
            bytes.extend(&(order[quarter % 4] | others).to_le_bytes()[..unit]);
        }
        Samples { unit, bytes }
    }

    /// Zeros, with line 0 set in the middle sample and behind it: one change.
    pub fn lone(unit: usize, len: u64) -> Samples {
        let one = |i| ((i >= len / 2 + 1) as u16).to_le_bytes();
        let bytes = (0..len).map(one).flat_map(|bytes| bytes.into_iter().take(unit)).collect();
        Samples { unit, bytes }
    }

    /// Random samples in which line 0 is never set.
    pub fn noise(unit: usize, len: u64) -> Samples {
        let mut rng = Rng::new(len);
        let sample = |_| ((rng.number() as u16) & !1).to_le_bytes();
        let bytes = (0..len).map(sample).flat_map(|bytes| bytes.into_iter().take(unit)).collect();
        Samples { unit, bytes }
    }
}

/// All samples into a new capture, `push` at a time.
pub struct Appends<'a> {
    pub samples: &'a Samples,
    pub push: usize,
}

/// What a recorder waits for on line 0, which never changes.
#[derive(Clone, Copy)]
pub enum Wait {
    Nothing,
    Rising,
    Edge,
}

/// All samples into a new recorder without a limit, `push` at a time. While it waits it keeps `pre` samples.
pub struct Pushes<'a> {
    pub samples: &'a Samples,
    pub push: usize,
    pub wait: Wait,
    pub pre: u64,
}

/// From change to change over the whole capture.
pub struct Walk {
    pub mask: u16,
    pub len: u64,
}

#[derive(Clone, Copy)]
pub enum Sort {
    Certain,
    Possible,
}

/// From change to change across unknown stretches: over the whole capture, forward or backward.
pub struct Across {
    pub walk: Walk,
    pub sort: Sort,
    pub back: bool,
    /// First place and count of each.
    pub stretches: Vec<usize>,
}

/// The stretches of a capture in whose file every so many-th block is bad.
pub fn stretches(unit: usize, len: u64, every: usize) -> Vec<usize> {
    let each = plain_file::PAYLOAD / unit;
    let firsts = (each..len as usize - each).step_by(each * every);
    firsts.flat_map(|first| [first, each]).collect()
}

/// A question for each range of this length.
pub struct Ranges {
    pub starts: Vec<u64>,
    pub len: u64,
}

impl Ranges {
    pub fn random(capture: u64, len: u64, count: u64) -> Ranges {
        let mut rng = Rng::new(len);
        Ranges { starts: (0..count).map(|_| rng.below(capture - len)).collect(), len }
    }

    /// All of a capture, so many times.
    pub fn whole(capture: u64, count: usize) -> Ranges {
        Ranges { starts: vec![0; count], len: capture }
    }

    pub fn count(&self) -> u64 {
        self.starts.len() as u64
    }
}

pub struct Bursts {
    pub places: Ranges,
    pub max_gap: u64,
    pub budget: u64,
}

/// All bursts of a capture, on all lines: each from its first change on, with a budget that no jump reaches, and the next one
/// behind its last.
pub struct AllBursts {
    pub max_gap: u64,
}

/// An encoder replayed from two lines of these samples.
pub struct Encoder<'a> {
    pub samples: &'a Samples,
    pub lines: [usize; 2],
}

/// The file of these samples, with a mark in the middle, so many times over.
pub struct Filing<'a> {
    pub samples: &'a Samples,
    pub times: u64,
}

impl Filing<'_> {
    pub fn mark(&self) -> u64 {
        self.samples.len() / 2
    }

    /// Samples that are written or read in all.
    pub fn count(&self) -> u64 {
        self.times * self.samples.len()
    }
}

/// Such a file to be salvaged, as it is or with every so many-th block bad.
pub struct Salvaging<'a> {
    pub filing: &'a Filing<'a>,
    pub every: Option<usize>,
}

/// One row of pixels.
pub struct Row {
    pub start: f64,
    pub spp: f64,
    pub width: u64,
}
