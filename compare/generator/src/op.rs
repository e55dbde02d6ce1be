//! The lines of an answer file without their answers: code and arguments.
//! crates/replay/data/README.md says what each of them means.

use crate::feed::Feed;

/// Lengths of the lent slices: bytes, 16-bit numbers of levels 1 to 4, bytes.
#[derive(Clone, Copy, Debug, Default, PartialEq)]
pub struct Lent {
    pub samples: u64,
    pub levels: [u64; 4],
    pub ring: u64,
}

/// A store's record.
#[derive(Clone, Copy, Debug, Default, PartialEq)]
pub struct Store {
    pub unit: u64,
    pub capacity: u64,
    pub len: u64,
    pub mark: Option<u64>,
}

/// The numbers of a recorder's record that can be wrong, beside its store's.
#[derive(Clone, Copy, Debug, Default, PartialEq)]
pub struct Recorder {
    pub limit: u64,
    pub pre: u64,
    pub kept: u64,
    pub place: u64,
}

#[derive(Clone, Copy, Debug, PartialEq)]
pub enum Wish {
    Fraction(f64),
    Seconds(f64),
}

#[derive(Clone, Copy, Debug, PartialEq)]
pub struct Term {
    pub line: u8,
    pub condition: Condition,
}

#[derive(Clone, Copy, Debug, PartialEq)]
pub enum Condition {
    Rising,
    Falling,
    Edge,
    High,
    Low,
}

pub const CONDITIONS: [Condition; 5] =
    [Condition::Rising, Condition::Falling, Condition::Edge, Condition::High, Condition::Low];

#[derive(Clone, Debug)]
pub struct Settings {
    pub channels: u64,
    pub capacity: u64,
    pub limit: u64,
    pub wish: Wish,
    pub rate: u64,
    pub terms: Vec<Term>,
}

#[derive(Clone, Copy, Debug)]
pub struct View {
    pub start: f64,
    pub spp: f64,
    pub width: u64,
    pub output: u64,
}

#[derive(Clone, Copy, Debug)]
pub struct Burst {
    pub mask: u16,
    pub sample: u64,
    pub max_gap: u64,
    pub tolerance: u64,
    pub budget: u64,
}

/// Which search.
#[derive(Clone, Copy, Debug, PartialEq)]
pub enum Way {
    Next,
    Prev,
}

/// Which change across unknown stretches: one that is there for every filling, or for some.
#[derive(Clone, Copy, Debug, PartialEq)]
pub enum Sort {
    Certain,
    Possible,
}

/// A search across unknown stretches, which are first place and count of each.
#[derive(Clone, Debug)]
pub struct Across {
    pub sort: Sort,
    pub way: Way,
    pub mask: u16,
    pub from: u64,
    pub stretches: Vec<u64>,
}

/// The four of them, in the order of their codes.
pub const SEARCHES: [(Sort, Way); 4] = [
    (Sort::Certain, Way::Next),
    (Sort::Certain, Way::Prev),
    (Sort::Possible, Way::Next),
    (Sort::Possible, Way::Prev),
];

/// A question of a mill, with its grant.
#[derive(Clone, Copy, Debug)]
pub struct Mill {
    pub grant: u16,
    pub ask: Ask,
}

/// What a mill asks. Its places count from the mark.
#[derive(Clone, Copy, Debug)]
pub enum Ask {
    Extent,
    Get(i64),
    Samples { start: i64, count: u64, output: u64 },
    Summary { a: i64, b: i64 },
    Next { mask: u16, from: i64 },
    Prev { mask: u16, from: i64 },
    Burst { mask: u16, sample: i64, max_gap: u64, tolerance: u64, budget: u64 },
    Render(View),
    Encoder { a: u64, b: u64 },
}

#[derive(Clone, Debug)]
pub enum Op {
    // These set the scene and have no answer.
    Lend(Lent),
    Record(Store),
    Feeder(Recorder),
    Put { level: u64, index: u64, value: u16 },
    PutFile { at: u64, byte: u8 },
    // The store.
    Capture { channels: u64, capacity: u64 },
    Append(Feed),
    Run,
    Get(u64),
    Samples { start: u64, count: u64, output: u64 },
    Raw(u64),
    Whole,
    // Search, bursts, pixels.
    Next { mask: u16, from: u64 },
    Prev { mask: u16, from: u64 },
    Summary { a: u64, b: u64 },
    Density { a: u64, b: u64 },
    Burst(Burst),
    Render(View),
    RenderDigest(View),
    // An encoder, by its lines A and B.
    Encoder { a: u64, b: u64 },
    // A search across unknown stretches.
    Across(Across),
    // The recorder.
    Pretrigger { time: f64, rate: u64, unit: u64 },
    Start(Settings),
    Push(Feed),
    State,
    // Files: all in the first bytes of file memory.
    Write { output: u64 },
    Read { capacity: u64, count: u64 },
    Salvage { capacity: u64, count: u64, list: u64 },
    Says { count: u64 },
    FileLen,
    // A mill's. They stand in no list: the Rust has no such reader.
    Mill(Mill),
}

impl Op {
    /// Whether it sets the scene.
    pub fn sets(&self) -> bool {
        matches!(
            self,
            Op::Lend(_) | Op::Record(_) | Op::Feeder(_) | Op::Put { .. } | Op::PutFile { .. }
        )
    }

    /// Whether another capture begins here, with nothing in it.
    pub fn begins(&self) -> bool {
        matches!(self, Op::Capture { .. } | Op::Start(_))
    }
}
