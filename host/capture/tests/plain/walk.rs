//! The walk that searches take over the summary tree: the same answers, and how many nodes are read for them.

use super::{burst_by, next_change, prev_change, summary};
use capture::{Burst, Counted, Lines, Node, CHUNK};
use std::cell::Cell;

/// The highest level; a node of level l covers 32^l samples.
const TOP: u32 = 4;

fn span(level: u32) -> usize {
    32usize.pow(level)
}

/// Samples, and the full nodes of each level over them. Level 0 is the samples.
pub struct Walk<'a> {
    s: &'a [Lines],
    levels: Vec<Vec<Node>>,
}

impl<'a> Walk<'a> {
    pub fn over(s: &'a [Lines]) -> Walk<'a> {
        let node = |part: &[Lines]| summary(part, 0, part.len()).unwrap();
        let nodes = |level| s.chunks_exact(span(level)).map(node).collect();
        Walk { s, levels: (0..=TOP).map(nodes).collect() }
    }

    pub fn next_change(&self, mask: Lines, from: usize) -> Counted<usize> {
        let mut walked = Counted { found: None, read: 0 };
        let mut place = from.saturating_add(1);
        while walked.found.is_none() && place < self.s.len() {
            let end = self.s.len().min((place / CHUNK + 1) * CHUNK);
            self.chunk(mask, place, end, self.s[place - 1], &mut walked);
            place = end;
        }
        assert_eq!(walked.found, next_change(self.s, mask, from), "the walk finds another");
        walked
    }

    pub fn prev_change(&self, mask: Lines, from: usize) -> Counted<usize> {
        let mut walked = Counted { found: None, read: 0 };
        let mut place = from.min(self.s.len().saturating_sub(1));
        while walked.found.is_none() && place > 0 {
            // Where a chunk begins, the one before is entered at its length.
            let start = (place - 1) / CHUNK * CHUNK;
            self.chunk(mask, place, start, self.s[place], &mut walked);
            place = start;
        }
        assert_eq!(walked.found, prev_change(self.s, mask, from), "the walk finds another");
        walked
    }

    pub fn burst_at(
        &self,
        mask: Lines,
        sample: usize,
        gap: usize,
        tolerance: usize,
        budget: usize,
    ) -> Counted<Burst> {
        let read = Cell::new(0);
        let counted = |walked: Counted<usize>| {
            read.set(read.get() + walked.read);
            walked.found
        };
        let prev = |from| counted(self.prev_change(mask, from));
        let next = |from| counted(self.next_change(mask, from));
        let found = burst_by(self.s.len(), prev, next, sample, [gap, tolerance, budget]);
        Counted { found, read: read.get() }
    }

    /// Walks from a place to an edge of its chunk's stored part, forward or backward, with the sample on the near side of
    /// the place as value.
    fn chunk(
        &self,
        mask: Lines,
        mut place: usize,
        edge: usize,
        mut value: Lines,
        walked: &mut Counted<usize>,
    ) {
        let back = edge < place;
        let mut cap = TOP;
        while place != edge {
            let fits =
                |level: &u32| place % span(*level) == 0 && place.abs_diff(edge) >= span(*level);
            let level = (0..=cap).rev().find(fits).unwrap();
            let past = if back { place - span(level) } else { place + span(level) };
            let node = self.levels[level as usize][place.min(past) / span(level)];
            let (near, far) = if back { (node.last, node.first) } else { (node.first, node.last) };
            walked.read += 1;
            if (near ^ value | node.toggles) & mask == 0 {
                (place, value) = (past, far);
            } else if level == 0 {
                walked.found = Some(place);
                return;
            } else {
                cap = level - 1;
            }
        }
    }
}
