//! One number over all bytes of a file, by which a card knows its file.

use std::io::{self, Read};

/// What it begins with, and what each step multiplies by, which is odd.
const BEGIN: u64 = 0xcbf2_9ce4_8422_2325;
const TIMES: u64 = 0x9e37_79b9_7f4a_7c15;
const TURN: u32 = 29;

/// Bytes of a step.
const WORD: usize = 8;

/// The number of the bytes so far: for each eight of them, read low byte first, it is combined with them by XOR, multiplied, and
/// turned by 29 bits; the last ones are filled up with zeros.
///
/// Any one changed byte changes it: with the number before, other eight bytes give another number, and with the same eight
/// bytes another number before does.
#[derive(Clone, Debug)]
pub struct Sum {
    number: u64,
    /// The bytes of a word that is not full yet.
    begun: [u8; WORD],
    count: usize,
}

impl Sum {
    pub fn new() -> Sum {
        Sum { number: BEGIN, begun: [0; WORD], count: 0 }
    }

    /// The number of some bytes.
    pub fn of(bytes: &[u8]) -> u64 {
        let mut sum = Sum::new();
        sum.add(bytes);
        sum.number()
    }

    pub fn add(&mut self, mut bytes: &[u8]) {
        if self.count > 0 {
            let (head, rest) = bytes.split_at(bytes.len().min(WORD - self.count));
            self.begun[self.count..self.count + head.len()].copy_from_slice(head);
            self.count += head.len();
            bytes = rest;
            if self.count < WORD {
                return;
            }
            self.number = step(self.number, self.begun);
            (self.begun, self.count) = ([0; WORD], 0);
        }
        let words = bytes.chunks_exact(WORD);
        let rest = words.remainder();
        self.number = words.fold(self.number, |number, word| {
            step(number, word.try_into().expect("a chunk is a word"))
        });
        self.begun[..rest.len()].copy_from_slice(rest);
        self.count = rest.len();
    }

    pub fn number(&self) -> u64 {
        match self.count {
            0 => self.number,
            _ => step(self.number, self.begun),
        }
    }
}

fn step(number: u64, word: [u8; WORD]) -> u64 {
    (number ^ u64::from_le_bytes(word)).wrapping_mul(TIMES).rotate_left(TURN)
}

/// Bytes that are added to a sum as they are read.
pub struct Summed<'a, R> {
    pub bytes: R,
    pub sum: &'a mut Sum,
}

impl<R: Read> Read for Summed<'_, R> {
    fn read(&mut self, buffer: &mut [u8]) -> io::Result<usize> {
        let count = self.bytes.read(buffer)?;
        self.sum.add(&buffer[..count]);
        Ok(count)
    }
}

#[cfg(test)]
mod tests {
    use super::*;
    use crate::plain::Rng;

    #[test]
    fn numbers_as_the_guide_defines_them() {
        assert_eq!(Sum::of(b""), BEGIN);
        let one = (BEGIN ^ 1).wrapping_mul(TIMES);
        assert_eq!(Sum::of(&[1]), one << 29 | one >> 35);
        assert_eq!(Sum::of(&[1]), Sum::of(&[1, 0, 0, 0, 0, 0, 0, 0]));
        assert_eq!(Sum::of(b"capture"), 0xce22_aaf7_d4a7_9073);
    }

    #[test]
    fn however_the_bytes_come() {
        let mut rng = Rng(91);
        for _ in 0..200 {
            let len = rng.below(200);
            let bytes: Vec<u8> = (0..len).map(|_| rng.below(256) as u8).collect();
            let mut sum = Sum::new();
            let mut rest = &bytes[..];
            while !rest.is_empty() {
                let (piece, more) = rest.split_at(rng.below(20).min(rest.len()));
                sum.add(piece);
                rest = more;
            }
            assert_eq!(sum.number(), Sum::of(&bytes));
        }
    }

    #[test]
    fn one_changed_byte_changes_it() {
        let mut bytes: Vec<u8> = (0..100u8).map(|i| i.wrapping_mul(7)).collect();
        let whole = Sum::of(&bytes);
        for at in 0..bytes.len() {
            for change in 1..=255 {
                bytes[at] ^= change;
                assert_ne!(Sum::of(&bytes), whole, "{at} {change}");
                bytes[at] ^= change;
            }
        }
    }
}
