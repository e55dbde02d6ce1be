//! Files with bad blocks by CR 8, written from its sentences and not from the library: at each place the sample that the file
//! holds there, or none.

use super::file::{block, payload, says, Said, BLOCK, HEAD, PAYLOAD};
use crate::digest::digest;

/// What a file holds of the capture that its block 0 speaks of.
pub struct Salvaged {
    said: Said,
    /// At each place a sample, or none where it is unknown.
    samples: Vec<Option<u16>>,
}

/// First place and count.
pub type Stretch = [u64; 2];

impl Salvaged {
    /// "Samples wholly within good blocks land at their own places."
    pub fn new(said: Said, file: &[u8]) -> Salvaged {
        let Said { unit, len, .. } = said;
        let (unit, len) = (unit as usize, len as usize);
        let good = |start: usize| {
            let (own, count) = (1 + start / PAYLOAD, PAYLOAD.min(len * unit - start));
            payload(there(file, own)?, own as u64, count)
        };
        let payloads: Vec<_> = (0..len * unit).step_by(PAYLOAD).map(good).collect();
        let byte = |at: usize| Some(payloads[at / PAYLOAD]?[at % PAYLOAD]);
        let sample = |place: usize| {
            let from = place * unit;
            let low_first = (from..from + unit).rev();
            low_first.map(byte).try_fold(0, |sum, byte| Some(256 * sum + byte? as u16))
        };
        Salvaged { said, samples: (0..len).map(sample).collect() }
    }

    /// Whether the same places are known when it is found out otherwise: the block that a capture with the bytes of a block
    /// has there is made, and compared. A block holds whole samples.
    pub fn known_otherwise(&self, file: &[u8]) -> bool {
        let unit = self.said.unit as usize;
        let same = |(i, samples): (usize, &[Option<u16>])| {
            let payload = HEAD..HEAD + samples.len() * unit;
            let made = |there: &[u8]| block(i as u32 + 1, &there[payload]);
            let good = there(file, i + 1).is_some_and(|there| made(there) == there);
            samples.iter().all(|sample| sample.is_some() == good)
        };
        self.samples.chunks(PAYLOAD / unit).enumerate().all(same)
    }

    /// "The others are stored as zero."
    pub fn stored(&self) -> Vec<u16> {
        self.samples.iter().map(|sample| sample.unwrap_or(0)).collect()
    }

    /// The longest runs of unknown places.
    pub fn stretches(&self) -> Vec<Stretch> {
        let mut all: Vec<Stretch> = Vec::new();
        let unknown = |&(_, sample): &(u64, &Option<u16>)| sample.is_none();
        for (place, _) in (0..).zip(&self.samples).filter(unknown) {
            match all.last_mut() {
                Some([first, count]) if *first + *count == place => *count += 1,
                _ => all.push([place, 1]),
            }
        }
        all
    }
}

/// The stretches of a file; none where it can't be salvaged.
pub fn stretches(file: &[u8]) -> Vec<Stretch> {
    says(file).map_or(Vec::new(), |said| Salvaged::new(said, file).stretches())
}

/// The answer's: what the store is, the number of stretches and that of samples replaced, and the list.
pub fn values(Said { unit, len, .. }: Said, stretches: &[Stretch]) -> Vec<u64> {
    let replaced = stretches.iter().map(|stretch| stretch[1]).sum();
    let listed = digest(stretches.iter().flatten().copied());
    vec![unit, len, stretches.len() as u64, replaced, listed]
}

/// The block at a place of the file, if it is wholly there.
fn there(file: &[u8], place: usize) -> Option<&[u8]> {
    file.get(place * BLOCK..(place + 1) * BLOCK)
}

#[cfg(test)]
mod tests {
    use super::super::file::{file_of, length, mend, read};
    use super::*;

    /// The file is salvaged with these stretches, and elsewhere these are its samples.
    fn salvages(file: &[u8], samples: &[u16], stretches: &[Stretch]) {
        let salvaged = Salvaged::new(says(file).unwrap(), file);
        assert!(salvaged.known_otherwise(file));
        assert_eq!(salvaged.stretches(), stretches);
        let mut stored = samples.to_vec();
        for &[first, count] in stretches {
            stored[first as usize..(first + count) as usize].fill(0);
        }
        assert_eq!(salvaged.stored(), stored);
        let Said { unit, len, .. } = salvaged.said;
        let whole = file.len() as u64 == length(unit, len);
        assert_eq!(read(file).is_some(), whole && stretches.is_empty());
    }

    /// A file with a change in one of its blocks.
    fn changed(file: &[u8], number: usize, change: impl Fn(&mut [u8])) -> Vec<u8> {
        let mut file = file.to_vec();
        change(&mut file[number * BLOCK..][..BLOCK]);
        file
    }

    fn to_bytes(samples: &[u16]) -> Vec<u8> {
        samples.iter().flat_map(|sample| sample.to_le_bytes()).collect()
    }

    #[test]
    fn three_samples_are_in_one_block() {
        let samples = [0x0201, 0x0403, 0xFF05];
        let file = file_of(2, Some(2), 3, &to_bytes(&samples));
        salvages(&file, &samples, &[]);
        for place in 0..BLOCK {
            salvages(&changed(&file, 1, |block| block[place] ^= 1), &samples, &[[0, 3]]);
            assert_eq!(says(&changed(&file, 0, |block| block[place] ^= 1)), None);
        }
        // Missing, and torn with its payload there.
        for length in [512, 513, 1_023] {
            salvages(&file[..length], &samples, &[[0, 3]]);
        }
        for more in [1, 511, 512, 2_000] {
            salvages(&[&file[..], &vec![7; more]].concat(), &samples, &[]);
        }
        assert_eq!(says(&file[..511]), None);
    }

    /// Blocks 1 to 4 have 250 samples each, block 5 has 7.
    #[test]
    fn neighbours_make_one_stretch() {
        let samples: Vec<u16> = (0..1_007).map(|i| 65 * i + 1).collect();
        let file = file_of(2, None, 1_007, &to_bytes(&samples));
        for (bad, stretches) in [
            (&[][..], &[][..]),
            (&[1], &[[0, 250]]),
            (&[5], &[[1_000, 7]]),
            (&[2, 3], &[[250, 500]]),
            (&[1, 3, 5], &[[0, 250], [500, 250], [1_000, 7]]),
            (&[1, 2, 4, 5], &[[0, 500], [750, 257]]),
            (&[1, 2, 3, 4, 5], &[[0, 1_007]]),
        ] {
            let mut spoiled = file.clone();
            for &number in bad {
                spoiled = changed(&spoiled, number, |block| block[13] ^= 64);
            }
            salvages(&spoiled, &samples, stretches);
        }
        salvages(&file[..3 * BLOCK], &samples, &[[500, 507]]);
    }

    /// Each field with the check made right; and zeros, whose check holds.
    #[test]
    fn a_right_check_is_not_enough() {
        let samples: Vec<u16> = (1..=9).collect();
        let file = file_of(1, None, 9, &[1, 2, 3, 4, 5, 6, 7, 8, 9]);
        for place in (2..HEAD).chain(HEAD + 9..BLOCK) {
            let change = |block: &mut [u8]| {
                block[place] ^= 1;
                mend(block);
            };
            salvages(&changed(&file, 1, change), &samples, &[[0, 9]]);
        }
        salvages(&changed(&file, 1, |block| block.fill(0)), &samples, &[[0, 9]]);
        // Another sample is another capture's.
        let other = changed(&file, 1, |block| {
            block[HEAD] = 100;
            mend(block);
        });
        salvages(&other, &[100, 2, 3, 4, 5, 6, 7, 8, 9], &[]);
    }

    /// A block has its number's place, and no other.
    #[test]
    fn blocks_stand_at_their_places() {
        let samples: Vec<u16> = (0..1_500).map(|i| i % 251).collect();
        let bytes: Vec<u8> = samples.iter().map(|&sample| sample as u8).collect();
        let file = file_of(1, None, 1_500, &bytes);
        let block = |number: usize| &file[number * BLOCK..][..BLOCK];
        salvages(&[0, 2, 1, 3].map(block).concat(), &samples, &[[0, 1_000]]);
        salvages(&[0, 1, 1, 3].map(block).concat(), &samples, &[[500, 500]]);
        salvages(&[0, 2, 3].map(block).concat(), &samples, &[[0, 1_500]]);
        salvages(&[0, 1, 2, 3, 3].map(block).concat(), &samples, &[]);
    }
}
