//! Lent memory, filled with a pattern, and what documents 01 and 02 say that append leaves in it.

use crate::node::{Node, NUMBERS};
use crate::op::Lent;
use port::LentMut;

/// Numbers behind each lent slice that belong to nobody.
pub const GUARD: usize = 40;

#[derive(Clone, Default, PartialEq)]
pub struct Memory {
    pub samples: Vec<u8>,
    pub levels: [Vec<u16>; 4],
    pub ring: Vec<u8>,
}

pub fn pattern(i: usize) -> u8 {
    (i.wrapping_mul(0x9E37_79B9) >> 13) as u8 ^ 0xC3
}

impl Memory {
    /// At least as much as is lent, and the guards.
    pub fn make(&mut self, lent: &Lent) {
        for (memory, length) in [(&mut self.samples, lent.samples), (&mut self.ring, lent.ring)] {
            let from = memory.len();
            memory.extend((from..length as usize + GUARD).map(pattern));
        }
        for (level, &length) in self.levels.iter_mut().zip(&lent.levels) {
            let from = level.len();
            let number = |i| pattern(i) as u16 | 0x3900;
            level.extend((from..length as usize + GUARD).map(number));
        }
    }

    /// As much as is lent, and the guards.
    pub fn part(&self, lent: &Lent) -> Memory {
        let [a, b, c, d] = lent.levels.map(|length| length as usize + GUARD);
        let [l1, l2, l3, l4] = &self.levels;
        let levels = [&l1[..a], &l2[..b], &l3[..c], &l4[..d]].map(<[u16]>::to_vec);
        let [samples, ring] = [(&self.samples, lent.samples), (&self.ring, lent.ring)]
            .map(|(memory, length)| memory[..length as usize + GUARD].to_vec());
        Memory { samples, levels, ring }
    }

    /// What is lent to append and to a read; push gets the ring beside it.
    pub fn lent_mut(&mut self, lent: &Lent) -> (LentMut<'_>, &mut [u8]) {
        let [a, b, c, d] = lent.levels.map(|n| n as usize);
        let [l1, l2, l3, l4] = &mut self.levels;
        let levels = [&mut l1[..a], &mut l2[..b], &mut l3[..c], &mut l4[..d]];
        let samples = &mut self.samples[..lent.samples as usize];
        (LentMut { samples, levels }, &mut self.ring[..lent.ring as usize])
    }

    /// Append, level by level, from the samples alone: a touched node is the node of its range. One that begins before
    /// the new samples is kept, and they join it: document 02's CR 2, at every level.
    pub fn append(&mut self, unit: usize, len: usize, bytes: &[u8]) {
        let end = len + bytes.len() / unit;
        self.samples[len * unit..end * unit].copy_from_slice(&bytes[..(end - len) * unit]);
        if end == len {
            return;
        }
        for level in 1..=4 {
            let span = 32usize.pow(level as u32);
            for number in len / span..=(end - 1) / span {
                let start = number * span;
                let kept = (start < len).then(|| self.node(unit, level, number));
                let new = (start.max(len)..end.min(start + span)).map(|i| self.node(unit, 0, i));
                let made = kept.into_iter().chain(new).reduce(Node::join);
                let made = made.expect("a touched node covers a sample");
                self.levels[level - 1][NUMBERS * number..][..NUMBERS]
                    .copy_from_slice(&made.numbers());
            }
        }
    }

    /// While the recorder waits: each sample goes to the ring's next slot.
    pub fn wait(&mut self, unit: usize, pre: usize, place: usize, bytes: &[u8]) {
        if pre == 0 {
            return;
        }
        for (k, sample) in bytes.chunks_exact(unit).enumerate() {
            let slot = (place + k) % pre * unit;
            self.ring[slot..slot + unit].copy_from_slice(sample);
        }
    }

    /// A node as it stands there; at level 0 a sample's.
    pub fn node(&self, unit: usize, level: usize, number: usize) -> Node {
        if level > 0 {
            return Node::read(&self.levels[level - 1][NUMBERS * number..]);
        }
        let at = &self.samples[number * unit..];
        Node::of_sample(if unit == 1 { at[0] as u16 } else { u16::from_le_bytes([at[0], at[1]]) })
    }

    pub fn first_difference(&self, right: &Memory) -> String {
        let bytes =
            [("byte", &self.samples, &right.samples), ("ring byte", &self.ring, &right.ring)];
        for (what, is, right) in bytes {
            if let Some(i) = (0..is.len()).find(|&i| is[i] != right[i]) {
                return format!("{what} {i} is {} and should be {}", is[i], right[i]);
            }
        }
        for (level, (is, right)) in self.levels.iter().zip(&right.levels).enumerate() {
            if let Some(i) = (0..is.len()).find(|&i| is[i] != right[i]) {
                let level = level + 1;
                return format!("level {level}, {i} is {} and should be {}", is[i], right[i]);
            }
        }
        "nowhere".into()
    }
}
