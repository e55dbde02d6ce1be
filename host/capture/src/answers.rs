//! What questions are answered with.

use crate::Lines;
use std::error::Error;
use std::fmt;

/// The summary of a stretch of samples.
#[derive(Clone, Copy, Debug, PartialEq, Eq, Hash)]
pub struct Node {
    /// The first sample.
    pub first: Lines,
    /// The last sample.
    pub last: Lines,
    /// The lines that change inside.
    pub toggles: Lines,
    /// How many places inside have a change of any line; the first place is not among them.
    pub count: u32,
}

/// The summary of a stretch as a [`Mill`](crate::Mill) sees it. It has no count of changes, which would tell of every
/// line:
///
/// ```compile_fail,E0609
/// let mut capture = capture::Capture::start(8, 1000).unwrap();
/// capture.append(&[0, 1]).unwrap();
/// capture.mill(0b1).summary(0, 2).unwrap().unwrap().count;
/// ```
#[derive(Clone, Copy, Debug, PartialEq, Eq, Hash)]
pub struct MillNode {
    /// The first sample.
    pub first: Lines,
    /// The last sample.
    pub last: Lines,
    /// The granted lines that change inside.
    pub toggles: Lines,
}

/// What a search found, and how hard it worked for that.
///
/// ```
/// use capture::{Capture, Counted};
///
/// let mut capture = Capture::start(8, 2000)?;
/// capture.append(&[0; 1000])?;
/// capture.append(&[1; 1000])?;
/// // It passes 31 samples, and then 30 nodes of 32 samples each. The next node has a change: eight more samples pass, and
/// // the one behind them differs.
/// let answer = capture.next_change(0b1, 0);
/// assert_eq!(answer, Counted { found: Some(1000), read: 31 + 30 + 1 + 8 + 1 });
/// # Ok::<(), capture::Refusal>(())
/// ```
#[derive(Clone, Copy, Debug, PartialEq, Eq, Hash)]
pub struct Counted<T> {
    /// What was found.
    pub found: Option<T>,
    /// The nodes of the summary tree that were read for it, samples among them; the sample that a search starts from is
    /// not counted. A search reads at most 384 for each [`CHUNK`](crate::CHUNK) that it enters; of a burst it is the sum
    /// over its searches.
    pub read: usize,
}

impl<T> Counted<T> {
    /// The same count with what `change` makes of the find.
    pub fn map<U>(self, change: impl FnOnce(T) -> U) -> Counted<U> {
        Counted { found: self.found.map(change), read: self.read }
    }
}

/// Changes that follow each other in less than a gap. Its places count as its reader does: from the first sample, or
/// as `Burst<i64>` from the mark (see [`Mill`](crate::Mill)).
#[derive(Clone, Copy, Debug, PartialEq, Eq, Hash)]
pub struct Burst<Place = usize> {
    /// The place of the first change.
    pub first: Place,
    /// The place of the last change.
    pub last: Place,
    /// How many jumps moved `last`.
    pub jumps_at_end: usize,
    /// How many jumps moved `first`.
    pub jumps_at_start: usize,
}

/// A burst as [`Bursts`](crate::Bursts) lists it. It has all its changes: no other is less than the gap away from it.
#[derive(Clone, Copy, Debug, PartialEq, Eq, Hash)]
pub struct ListedBurst<Place = usize> {
    /// The place of the first change.
    pub first: Place,
    /// The place of the last change.
    pub last: Place,
    /// How many changes it has, the first and the last among them.
    pub changes: usize,
}

/// How an encoder has turned from the first sample of a capture to the last.
///
/// Its lines A and B go round (A, B) = 00, 10, 11, 01, 00 forward, and the other way round backward. The three counts add up
/// to the places at which a line of the two changes.
///
/// ```
/// use capture::{Capture, Encoder};
///
/// let mut capture = Capture::start(8, 1000)?;
/// // Line 0 is A and line 1 is B: a round forward, and two steps back.
/// capture.append(&[0b00, 0b01, 0b11, 0b10, 0b00, 0b10, 0b11])?;
/// let turned = Encoder { position: 2, forward: 4, backward: 2, skipped: 0 };
/// assert_eq!(capture.encoder(0, 1)?, turned);
/// # Ok::<(), capture::Refusal>(())
/// ```
#[derive(Clone, Copy, Debug, Default, PartialEq, Eq, Hash)]
pub struct Encoder {
    /// Where it is at the end, from 0 at the first sample: `forward` less `backward`.
    pub position: i64,
    /// Its steps forward.
    pub forward: usize,
    /// Its steps backward.
    pub backward: usize,
    /// How often both lines changed in one sample. It may have gone either way then, so it counts as not moved.
    pub skipped: usize,
}

/// The stretch of a capture that is drawn.
#[derive(Clone, Copy, Debug, PartialEq)]
pub struct View {
    /// The place at which the first pixel begins, as its reader counts. It may be a part of a sample, or before the
    /// capture.
    pub start: f64,
    /// Samples per pixel.
    pub spp: f64,
}

/// One pixel of all lines, or of a [`Mill`](crate::Mill)'s granted lines.
#[derive(Clone, Copy, Debug, Default, PartialEq, Eq, Hash)]
pub struct Pixel {
    /// The first sample under it; 0 where there is none.
    pub first: Lines,
    /// The lines that change under it, up to and with the first sample of the next pixel.
    pub toggles: Lines,
}

impl Pixel {
    /// The pixels of a drawn row, two numbers each.
    pub(crate) fn of(row: &[Lines]) -> Vec<Pixel> {
        row.chunks_exact(2).map(|pixel| Pixel { first: pixel[0], toggles: pixel[1] }).collect()
    }
}

/// Which places a [`Mill`](crate::Mill) has, as it counts them.
#[derive(Clone, Copy, Debug, PartialEq, Eq, Hash)]
pub struct Extent {
    /// The place of the first sample, 0 or below.
    pub first: i64,
    /// The place behind the last sample.
    pub end: i64,
    /// Whether there is a mark. It is at 0 then, and else the first sample is.
    pub marked: bool,
}

/// A node of the summary tree that is not the node of its stretch.
#[derive(Clone, Copy, Debug, PartialEq, Eq, Hash)]
pub struct WrongNode {
    /// Its level, 1 to 4: a node of level l covers 32^l samples.
    pub level: usize,
    /// Its number in the level, from 0.
    pub number: usize,
}

impl fmt::Display for WrongNode {
    fn fmt(&self, f: &mut fmt::Formatter<'_>) -> fmt::Result {
        write!(f, "node {} of level {} is not the node of its samples", self.number, self.level)
    }
}

impl Error for WrongNode {}
