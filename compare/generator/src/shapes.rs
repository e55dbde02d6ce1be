//! Captures to ask about: all short ones, and random ones around the borders.

use crate::document::rules;
use crate::feed::{to_bytes, Feed};
use crate::list::List;
use crate::op::Op;
use rng::Rng;

pub const CHUNK: u64 = 1_048_576;

/// Lengths at which a node of a level begins or ends.
pub const BORDERS: [u64; 9] = [31, 32, 33, 1_023, 1_024, 1_025, 32_767, 32_768, 32_769];

/// Sample bytes that a reader of the lists has room for.
const ROOM: u64 = 4_194_304;

pub const CHANNELS: [u64; 7] = [0, 1, 3, 8, 9, 16, 17];

/// Numbers that are no line.
pub const NO_LINES: [u64; 4] = [16, 17, 1 << 63, u64::MAX];

#[derive(Clone, Copy)]
pub enum Size {
    Short,
    Border,
    Big,
}

pub struct Shape {
    pub channels: u64,
    pub capacity: u64,
    pub len: u64,
    appends: Vec<Feed>,
    /// Where a run or an append begins.
    places: Vec<u64>,
}

impl Shape {
    pub fn random(rng: &mut Rng, size: Size) -> Shape {
        let channels = rng.pick(&CHANNELS);
        let unit = rules::unit(channels);
        let room = ROOM / unit;
        let len = match size {
            Size::Short => rng.below(13),
            Size::Border if rng.once_in(4) => rng.below(3_000),
            Size::Border => rng.pick(&BORDERS) + rng.pick(&[0, 0, 0, 32, 64, 1_024]),
            Size::Big => {
                let chunks = 1 + rng.below(2);
                chunks * CHUNK + rng.pick(&[0, 1, 33, 1_025]) - rng.pick(&[0, 0, 1, 2])
            }
        };
        let len = len.min(room);
        let capacity = (len + rng.pick(&[0, 1, 5, 40])).clamp(1, room);
        let mut shape = Shape { channels, capacity, len, appends: Vec::new(), places: vec![0] };
        shape.fill(rng, unit);
        shape
    }

    /// Makes appends until all samples are there.
    fn fill(&mut self, rng: &mut Rng, unit: u64) {
        let lines = 8 * unit;
        let mut value = 0;
        let mut at = 0;
        let most = 3 + rng.below(10);
        while at < self.len {
            let left = self.len - at;
            let last = self.appends.len() as u64 == most;
            let kind = if last { 0 } else { rng.below(8) };
            let feed = match kind {
                0..=3 => {
                    let mut runs = Vec::new();
                    let mut rest = left;
                    for _ in 0..1 + rng.below(3) {
                        let count = if last { rest } else { stretch(rng, self.len - rest, rest) };
                        value = another(rng, value, lines);
                        runs.push((count, value));
                        self.places.push(self.len - rest);
                        rest -= count;
                        if rest == 0 {
                            break;
                        }
                    }
                    Feed::Runs(runs)
                }
                4 => {
                    let count = left.min(1 + rng.below(2_000));
                    let mask = mask(rng, lines) & line_mask(lines);
                    Feed::Noise { count, seed: rng.below(1 << 32), mask }
                }
                _ => {
                    let count = left.min(1 + rng.below(9));
                    let mut samples = Vec::new();
                    for _ in 0..count {
                        value = another(rng, value, lines);
                        samples.push(value);
                    }
                    self.places.extend(at..at + count);
                    let mut bytes = to_bytes(&samples, unit);
                    if unit == 2 && rng.once_in(3) {
                        bytes.push(rng.below(256) as u8);
                    }
                    Feed::Bytes(bytes)
                }
            };
            self.places.push(at);
            at += count(&feed, unit);
            self.appends.push(feed);
        }
    }

    pub fn build(&self, list: &mut List) {
        list.capture(self.channels, self.capacity);
        for feed in &self.appends {
            list.say(Op::Append(feed.clone()));
        }
    }

    pub fn lines(&self) -> u64 {
        8 * rules::unit(self.channels)
    }

    /// A place worth asking about.
    pub fn place(&self, rng: &mut Rng) -> u64 {
        let near = |rng: &mut Rng, place: u64| (place + rng.below(4)).saturating_sub(2);
        match rng.below(16) {
            0..=6 => {
                let place = rng.pick(&self.places);
                near(rng, place)
            }
            7..=8 => {
                let span = rng.pick(&[32, 1_024, 32_768, CHUNK]);
                let place = (1 + rng.below(self.len / span + 1)) * span;
                near(rng, place)
            }
            9..=11 => rng.below(self.len + 3),
            12..=14 => near(rng, self.len),
            _ => rng.pick(&[0, u64::MAX, u64::MAX - 1, 1 << 32, 1 << 63]),
        }
    }
}

fn count(feed: &Feed, unit: u64) -> u64 {
    match feed {
        Feed::Bytes(bytes) => bytes.len() as u64 / unit,
        Feed::Runs(runs) => runs.iter().map(|run| run.0).sum(),
        Feed::Noise { count, .. } => *count,
    }
}

/// A count of samples from `at` on, often one that ends at a border or beside it.
fn stretch(rng: &mut Rng, at: u64, left: u64) -> u64 {
    let to = |span: u64| span - at % span;
    let count = match rng.below(9) {
        0 => 1 + rng.below(3),
        1 => 31 + rng.below(3),
        2 => to(32) + rng.below(2),
        3 => to(1_024) + rng.below(2),
        4 => to(32_768) - rng.below(2).min(to(32_768) - 1),
        5 => to(CHUNK) - rng.below(2).min(to(CHUNK) - 1),
        6 => to(CHUNK) + rng.below(2),
        7 => left,
        _ => 1 + rng.below(left),
    };
    count.clamp(1, left)
}

/// The next value: mostly one line changes.
pub fn another(rng: &mut Rng, value: u16, lines: u64) -> u16 {
    match rng.below(8) {
        0 => value,
        1 => rng.number() as u16 & line_mask(lines),
        2 => value ^ (1 << rng.below(lines)),
        _ => value ^ (1 << rng.below(2)),
    }
}

fn line_mask(lines: u64) -> u16 {
    if lines == 8 {
        0xFF
    } else {
        0xFFFF
    }
}

/// A mask to ask with: few lines, all, none, or lines that the unit lacks.
pub fn mask(rng: &mut Rng, lines: u64) -> u16 {
    match rng.below(8) {
        0 => 0xFFFF,
        1 => rng.pick(&[0, 0xFF00, 0x8000, 0x00FF]),
        2 => rng.number() as u16,
        3 => 1 << rng.below(lines),
        4 => 3,
        _ => 1 << rng.below(2),
    }
}

/// A line to replay an encoder from: mostly one of the two that change most, seldom one that the unit lacks, or none.
pub fn line(rng: &mut Rng, lines: u64) -> u64 {
    match rng.below(12) {
        0 => rng.below(16),
        1 => rng.pick(&NO_LINES),
        2..=4 => rng.below(lines),
        _ => rng.below(2),
    }
}

/// All captures of up to `most` of these values.
pub fn each_short(values: &[u16], most: u32, mut found: impl FnMut(&[u16])) {
    let base = values.len();
    for len in 0..=most {
        for number in 0..base.pow(len) {
            let digit = |place| values[number / base.pow(place) % base];
            let samples: Vec<u16> = (0..len).map(digit).collect();
            found(&samples);
        }
    }
}
