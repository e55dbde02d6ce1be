//! Document 01's walk, step by step, over the nodes that memory holds, whatever they are: what a search of the port finds,
//! and by CR 3 how many nodes it reads for that.

use super::memory::Memory;
use crate::document::rules;
use crate::node::{span, Node, TOP};
use crate::op::{Burst, Way};
use crate::shapes::CHUNK;
use std::cell::RefCell;

/// The most nodes that a search over right levels reads in a chunk.
pub const MOST: u64 = 384;

/// What a walk found, its steps, and the chunks in which it made them.
#[derive(Clone, Copy, Debug, PartialEq)]
pub struct Walked<T> {
    pub found: Option<T>,
    pub steps: u64,
    pub chunks: u64,
}

impl<T> Walked<T> {
    const NOTHING: Walked<T> = Walked { found: None, steps: 0, chunks: 0 };

    pub fn map<U>(self, change: impl FnOnce(T) -> U) -> Walked<U> {
        let Walked { found, steps, chunks } = self;
        Walked { found: found.map(change), steps, chunks }
    }
}

/// A question about lines of a mask, asked of a store and its memory.
pub struct Walk<'a> {
    pub memory: &'a Memory,
    pub unit: usize,
    pub len: u64,
    pub mask: u16,
}

impl Walk<'_> {
    pub fn search(&self, way: Way, from: u64) -> Walked<u64> {
        match way {
            Way::Next => self.next(from),
            Way::Prev => self.prev(from),
        }
    }

    fn next(&self, from: u64) -> Walked<u64> {
        let mut walked = Walked::NOTHING;
        let mut place = from.saturating_add(1);
        while walked.found.is_none() && place < self.len {
            let end = self.len.min((place / CHUNK + 1) * CHUNK);
            self.chunk(place, end, self.sample(place - 1), &mut walked);
            place = end;
        }
        walked
    }

    fn prev(&self, from: u64) -> Walked<u64> {
        let mut walked = Walked::NOTHING;
        let mut place = from.min(self.len.saturating_sub(1));
        while walked.found.is_none() && place > 0 {
            // Where a chunk begins, the one before is entered at its length.
            let start = (place - 1) / CHUNK * CHUNK;
            self.chunk(place, start, self.sample(place), &mut walked);
            place = start;
        }
        walked
    }

    /// The burst at a place, with the steps of all its searches.
    pub fn burst(&self, burst: &Burst) -> Walked<[u64; 4]> {
        let sum = RefCell::new(Walked::NOTHING);
        let add = |walked: Walked<u64>| {
            let mut sum = sum.borrow_mut();
            sum.steps += walked.steps;
            sum.chunks += walked.chunks;
            walked.found
        };
        let (prev, next) = (|from| add(self.prev(from)), |from| add(self.next(from)));
        let found = rules::burst_by(self.len, prev, next, burst);
        Walked { found, ..sum.into_inner() }
    }

    /// Walks from a place to an edge of its chunk's stored part, forward or backward, with the sample on the near side of
    /// the place as value.
    fn chunk(&self, mut place: u64, edge: u64, mut value: u16, walked: &mut Walked<u64>) {
        let back = edge < place;
        let mut cap = TOP;
        walked.chunks += 1;
        while place != edge {
            let fits = |&level: &u32| {
                place.is_multiple_of(span(level)) && place.abs_diff(edge) >= span(level)
            };
            let level = (0..=cap).rev().find(fits).expect("a sample fits");
            let past = if back { place - span(level) } else { place + span(level) };
            let Node { first, last, toggles, .. } = self.node(level, place.min(past));
            let (near, far) = if back { (last, first) } else { (first, last) };
            walked.steps += 1;
            if ((near ^ value) | toggles) & self.mask == 0 {
                (place, value) = (past, far);
            } else if level == 0 {
                walked.found = Some(place);
                return;
            } else {
                cap = level - 1;
            }
        }
    }

    fn node(&self, level: u32, start: u64) -> Node {
        self.memory.node(self.unit, level as usize, (start / span(level)) as usize)
    }

    fn sample(&self, place: u64) -> u16 {
        self.node(0, place).first
    }
}

#[cfg(test)]
mod tests {
    use super::*;
    use crate::document::refusals::need;

    fn held(samples: &[u8]) -> Memory {
        let mut memory = Memory::default();
        memory.make(&need(1, samples.len() as u64));
        memory.append(1, 0, samples);
        memory
    }

    /// A walk for line 0.
    fn walk(memory: &Memory, len: usize) -> Walk<'_> {
        Walk { memory, unit: 1, len: len as u64, mask: 1 }
    }

    fn counted<T>(walked: Walked<T>) -> (Option<T>, u64) {
        (walked.found, walked.steps)
    }

    #[test]
    fn a_short_capture_is_walked_by_samples() {
        let memory = held(&[0, 0, 1, 1, 0, 2, 2, 3]);
        let walk = walk(&memory, 8);
        assert_eq!(counted(walk.next(0)), (Some(2), 2));
        assert_eq!(counted(walk.next(7)), (None, 0));
        assert_eq!(counted(walk.next(u64::MAX)), (None, 0));
        assert_eq!(counted(walk.prev(6)), (Some(4), 3));
        assert_eq!(counted(walk.prev(u64::MAX)), (Some(7), 1));
        let burst = |max_gap, tolerance, budget| {
            let burst = Burst { mask: 1, sample: 3, max_gap, tolerance, budget };
            counted(walk.burst(&burst))
        };
        // The two searches from the place, then those at the end and at the start, failed ones among them.
        assert_eq!(burst(4, 0, 1), (Some([2, 7, 1, 0]), (2 + 1) + 1 + 2));
        assert_eq!(burst(3, 0, 1), (Some([2, 4, 0, 0]), (2 + 1) + 3 + 2));
        assert_eq!(burst(4, 0, 0), (Some([2, 4, 0, 0]), 2 + 1));
        // Second changes are searched for within the tolerance alone.
        assert_eq!(burst(2, 0, 9), (None, 2 + 1));
        assert_eq!(burst(2, 1, 9), (None, (2 + 1) + 1 + 3));
        assert_eq!(burst(1, 9, 9), (None, 0));
    }

    #[test]
    fn levels_are_climbed_and_left_again() {
        let len = CHUNK as usize + 5;
        let mut samples = vec![0; len];
        samples[CHUNK as usize - 1..].fill(1);
        let memory = held(&samples);
        let walk = walk(&memory, len);
        let walked = walk.next(0);
        let steps = 4 * 31 + 3 * 32;
        assert_eq!(walked, Walked { found: Some(CHUNK - 1), steps, chunks: 1 });
        // Four samples; in the chunk before a node of each level, its last sample, and the one before that.
        let steps = 4 + 4 + 2;
        assert_eq!(walk.prev(CHUNK + 4), Walked { found: Some(CHUNK - 1), steps, chunks: 2 });
    }

    #[test]
    fn wrong_nodes_are_believed() {
        let mut samples = [0; 96];
        samples[40] = 1;
        let mut memory = held(&samples);
        assert_eq!(counted(walk(&memory, 96).next(31)), (Some(40), 1 + 9));
        memory.levels[0][5..10].fill(0);
        assert_eq!(counted(walk(&memory, 96).next(31)), (None, 2));
        // A change that is in none of its samples: from there on the walk keeps to samples.
        let mut memory = held(&[0; 96]);
        memory.levels[0][7] = 1;
        assert_eq!(counted(walk(&memory, 96).next(31)), (None, 1 + 64));
    }
}
