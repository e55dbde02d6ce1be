//! One burst after another.

use crate::capture::answer;
use crate::{Burst, Capture, Lines, ListedBurst, Mill};
use std::fmt::Debug;
use std::iter::FusedIterator;

/// All bursts of a capture's lines, in order, each once. [`Capture::bursts`] gives it, and [`Mill::bursts`].
///
/// A burst is asked for at its first change, with a budget that no jump reaches. No change outside such a burst is less than
/// the gap away from it, so the next one is searched for behind its last change.
#[derive(Clone, Debug)]
pub struct Bursts<Reader: Searches> {
    reader: Reader,
    mask: Lines,
    max_gap: usize,
    from: Reader::Place,
}

/// A reader whose bursts are listed.
pub trait Searches {
    /// A place as it counts.
    type Place: Copy + Debug + Eq;

    /// The first change after a place.
    fn next(&self, mask: Lines, from: Self::Place) -> Option<Self::Place>;

    /// The burst at a place, with a gap, a tolerance and a budget.
    fn burst(
        &self,
        mask: Lines,
        sample: Self::Place,
        bounds: [usize; 3],
    ) -> Option<Burst<Self::Place>>;
}

impl Searches for &Capture {
    type Place = usize;

    fn next(&self, mask: Lines, from: usize) -> Option<usize> {
        self.next_change(mask, from).found
    }

    fn burst(&self, mask: Lines, sample: usize, bounds: [usize; 3]) -> Option<Burst> {
        let [max_gap, tolerance, budget] = bounds;
        self.burst_at(mask, sample, max_gap, tolerance, budget).found
    }
}

// Nothing is left to refuse: `Mill::bursts` has asked about the mask, and places are those that were found.
impl Searches for Mill<'_> {
    type Place = i64;

    fn next(&self, mask: Lines, from: i64) -> Option<i64> {
        answer(self.next_change(mask, from)).found
    }

    fn burst(&self, mask: Lines, sample: i64, bounds: [usize; 3]) -> Option<Burst<i64>> {
        let [max_gap, tolerance, budget] = bounds;
        answer(self.burst_at(mask, sample, max_gap, tolerance, budget)).found
    }
}

impl<Reader: Searches> Bursts<Reader> {
    pub(crate) fn new(
        reader: Reader,
        mask: Lines,
        max_gap: usize,
        first: Reader::Place,
    ) -> Bursts<Reader> {
        Bursts { reader, mask, max_gap, from: first }
    }
}

impl<Reader: Searches> Iterator for Bursts<Reader> {
    type Item = ListedBurst<Reader::Place>;

    fn next(&mut self) -> Option<Self::Item> {
        let bounds = [self.max_gap, 0, usize::MAX];
        loop {
            self.from = self.reader.next(self.mask, self.from)?;
            // A change that has no other less than the gap away is in no burst.
            let Some(burst) = self.reader.burst(self.mask, self.from, bounds) else { continue };
            let mut changes = 1;
            while self.from != burst.last {
                self.from = self.reader.next(self.mask, self.from)?;
                changes += 1;
            }
            return Some(ListedBurst { first: burst.first, last: burst.last, changes });
        }
    }
}

// After the last change there is none again.
impl<Reader: Searches> FusedIterator for Bursts<Reader> {}
