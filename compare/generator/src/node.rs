//! A node of the summary tree with document 02's count of changes (CR 5), its join, and which nodes make up a range.

use crate::shapes::CHUNK;

/// A node's numbers in level memory: first, last, toggles, and the count's halves, low first.
pub const NUMBERS: usize = 5;

#[derive(Clone, Copy, Debug, PartialEq)]
pub struct Node {
    pub first: u16,
    pub last: u16,
    pub toggles: u16,
    pub count: u32,
}

impl Node {
    pub fn of_sample(sample: u16) -> Node {
        Node { first: sample, last: sample, toggles: 0, count: 0 }
    }

    /// From level memory, at its numbers.
    pub fn read(numbers: &[u16]) -> Node {
        let [first, last, toggles] = [numbers[0], numbers[1], numbers[2]];
        let count = numbers[3] as u32 + 65_536 * numbers[4] as u32;
        Node { first, last, toggles, count }
    }

    pub fn numbers(self) -> [u16; NUMBERS] {
        let Node { first, last, toggles, count } = self;
        [first, last, toggles, (count % 65_536) as u16, (count / 65_536) as u16]
    }

    /// "Joined nodes add, plus one if left last and right first differ; a sum above 2^32 − 1 counts as that."
    pub fn join(self, right: Node) -> Node {
        let border = (self.last != right.first) as u64;
        let sum = self.count as u64 + right.count as u64 + border;
        Node {
            first: self.first,
            last: right.last,
            toggles: self.toggles | right.toggles | (self.last ^ right.first),
            count: sum.min(u32::MAX as u64) as u32,
        }
    }
}

/// How many samples a node of a level covers; of level 0, a sample.
pub fn span(level: u32) -> u64 {
    32u64.pow(level)
}

/// The highest level.
pub const TOP: u32 = 4;

/// Ranges up to this length are made of samples.
const SHORT: u64 = 64;

/// The node of [a, b), cut at len, over nodes that may be any, `node(level, number)`: at each place one of the highest level
/// that begins there and ends by b joins those before it. None where the range is empty.
pub fn joined(a: u64, b: u64, len: u64, node: impl Fn(u32, u64) -> Node) -> Option<Node> {
    let b = b.min(len);
    let top = if b.saturating_sub(a) > SHORT { TOP } else { 0 };
    let mut made: Option<Node> = None;
    let mut place = a;
    while place < b {
        let fits = |&level: &u32| place.is_multiple_of(span(level)) && b - place >= span(level);
        let level = (0..=top).rev().find(fits).expect("a sample fits");
        let next = node(level, place / span(level));
        made = Some(made.map_or(next, |before| before.join(next)));
        place += span(level);
    }
    made
}

// No node reaches over a chunk's end.
const _: () = assert!(CHUNK == 32u64.pow(TOP));

#[cfg(test)]
mod tests {
    use super::*;

    fn node(first: u16, last: u16, count: u32) -> Node {
        Node { first, last, toggles: 0, count }
    }

    #[test]
    fn counts_add_with_their_border_and_are_cut() {
        let most = u32::MAX;
        for (left, right, sum) in [
            (node(1, 1, 0), node(1, 1, 0), 0),
            (node(1, 2, 7), node(1, 1, 8), 16),
            (node(1, 1, 65_535), node(2, 2, 0), 65_536),
            (node(1, 1, most - 1), node(1, 1, 1), most),
            (node(1, 1, most - 1), node(2, 2, 0), most),
            (node(1, 1, most - 1), node(2, 2, 1), most),
            (node(1, 1, most), node(2, 2, most), most),
        ] {
            assert_eq!(left.join(right).count, sum);
            assert_eq!(Node::read(&left.numbers()), left);
        }
        assert_eq!(node(1, 2, 65_536 * 7 + 9).numbers(), [1, 2, 0, 9, 7]);
    }

    #[test]
    fn a_range_takes_the_highest_nodes_that_fit() {
        let taken = |a, b, len| {
            let taken = std::cell::RefCell::new(Vec::new());
            let node = |level, number| {
                taken.borrow_mut().push((level, number));
                Node::of_sample(0)
            };
            joined(a, b, len, node);
            taken.into_inner()
        };
        assert_eq!(taken(5, 5, 9), []);
        assert_eq!(taken(7, 99, 9), [(0, 7), (0, 8)]);
        assert_eq!(taken(0, 64, 200).len(), 64);
        assert_eq!(taken(0, 66, 200), [(1, 0), (1, 1), (0, 64), (0, 65)]);
        assert_eq!(taken(31, 97, 200), [(0, 31), (1, 1), (1, 2), (0, 96)]);
        assert_eq!(taken(0, u64::MAX, 2 * CHUNK + 1), [(4, 0), (4, 1), (0, 2 * CHUNK)]);
        assert_eq!(taken(992, 2_080, 4_000), [(1, 31), (2, 1), (1, 64)]);
    }
}
