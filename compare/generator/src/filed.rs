//! Captures to be filed, and what may be wrong with a file.

use crate::document::file::{file_of, length, mend, BLOCK, HEAD, PAYLOAD};
use crate::document::refusals::{need, MOST};
use crate::feed::Feed;
use crate::list::List;
use crate::op::{Op, Store};
use rng::Rng;

/// A capture to be filed, in a store that is just full or has room for one sample. Its memory is enough for either unit.
#[derive(Clone)]
pub struct Filed {
    pub store: Store,
    pub feed: Feed,
}

impl Filed {
    /// Of these sample bytes.
    pub fn new(unit: u64, mark: Option<u64>, bytes: Vec<u8>) -> Filed {
        let len = bytes.len() as u64 / unit;
        Filed { store: Store { unit, capacity: len.max(1), len, mark }, feed: Feed::Bytes(bytes) }
    }

    pub fn file(&self) -> Vec<u8> {
        let Store { unit, len, mark, .. } = self.store;
        file_of(unit, mark, len, &self.feed.pieces(unit).concat())
    }

    pub fn length(&self) -> u64 {
        length(self.store.unit, self.store.len)
    }

    pub fn build(&self, list: &mut List) {
        let Store { unit, capacity, len, .. } = self.store;
        list.lend(need(2, capacity));
        list.say(Op::Capture { channels: 8 * unit, capacity });
        if len > 0 {
            list.say(Op::Append(self.feed.clone()));
        }
        list.say(Op::Record(self.store));
    }

    /// Built, and written to file memory.
    pub fn write(&self, list: &mut List) {
        self.build(list);
        list.say(Op::Write { output: self.length() });
    }
}

/// A capture of noise, in pieces.
pub fn noise(unit: u64, len: u64, mark: Option<u64>) -> Filed {
    let mask = if unit == 1 { 0xFF } else { 0xFFFF };
    let feed = Feed::Noise { count: len, seed: len + unit, mask };
    Filed { store: Store { unit, capacity: len.max(1), len, mark }, feed }
}

/// A capture in which all is 0.
pub fn quiet(unit: u64, len: u64) -> Filed {
    Filed { feed: Feed::Runs(vec![(len, 0)]), ..noise(unit, len, None) }
}

/// A capture in which all is 0 but the first and the last sample of each block.
pub fn spotted(unit: u64, len: u64, mark: Option<u64>) -> Filed {
    let each = PAYLOAD as u64 / unit;
    let spot = |number: u64| (1, number as u16 * if unit == 1 { 1 } else { 257 });
    let mut runs = Vec::new();
    for block in 0..len.div_ceil(each) {
        let count = each.min(len - block * each);
        runs.push(spot(2 * block + 1));
        if count > 1 {
            runs.extend([(count - 2, 0), spot(2 * block + 2)]);
        }
    }
    runs.retain(|run| run.0 > 0);
    Filed { feed: Feed::Runs(runs), ..noise(unit, len, mark) }
}

/// A change in a block of a file: from this place on these bytes.
pub struct Change {
    pub block: usize,
    pub at: usize,
    pub bytes: Vec<u8>,
}

impl Change {
    /// The file with it, and the check of its block made right.
    pub fn made(&self, file: &[u8]) -> Vec<u8> {
        let mut file = file.to_vec();
        let block = &mut file[self.block * BLOCK..][..BLOCK];
        block[self.at..self.at + self.bytes.len()].copy_from_slice(&self.bytes);
        mend(block);
        file
    }
}

/// The numbers of a file's blocks, and the count of each.
fn counts(filed: &Filed) -> impl Iterator<Item = (usize, usize)> {
    let bytes = (filed.store.len * filed.store.unit) as usize;
    let full = std::iter::repeat_n(PAYLOAD, bytes / PAYLOAD);
    let last = Some(bytes % PAYLOAD).filter(|&count| count > 0);
    [18].into_iter().chain(full).chain(last).enumerate()
}

/// Each byte behind a payload, with two other values.
pub fn paddings(filed: &Filed) -> Vec<Change> {
    let places = |(block, count)| (HEAD + count..BLOCK).map(move |at| (block, at));
    let padding = |(block, at)| [1, 255].map(|byte| Change { block, at, bytes: vec![byte] });
    counts(filed).flat_map(places).flat_map(padding).collect()
}

/// Other values of each field of a file's blocks, and a few of samples, which another capture has.
pub fn changes(filed: &Filed) -> Vec<Change> {
    let Store { len, mark, .. } = filed.store;
    let mut all = Vec::new();
    let mut add = |block: usize, at: usize, bytes: &[u8]| {
        all.push(Change { block, at, bytes: bytes.to_vec() });
    };
    for (block, count) in counts(filed) {
        for other in [0, 1, 18, 499, 500, 501, 512, count - 1, count + 1, count + 256, 65_535] {
            add(block, 2, &(other as u16).to_le_bytes());
        }
        let own = block as u32;
        for other in [own.wrapping_sub(1), own + 1, own + 256, own + 65_536, own | 1 << 31] {
            add(block, 4, &other.to_le_bytes());
        }
        for place in 8..HEAD {
            add(block, place, &[1]);
            add(block, place, &[255]);
        }
        if block > 0 {
            add(block, HEAD, &[1]);
            add(block, HEAD + count - 1, &[255]);
        }
    }
    for unit in [0, 1, 2, 3, 4, 255] {
        add(0, 12, &[unit]);
    }
    for flag in [0, 1, 2, 3, 128, 255] {
        add(0, 13, &[flag]);
    }
    let near = [len.wrapping_sub(1), len + 1, len / 2, 2 * len, len + 500, len + (1 << 32)];
    let far = [0, 1, 250, 500, MOST, MOST + 1, 1 << 63, (1 << 63) + len, u64::MAX];
    for other in near.into_iter().chain(far) {
        add(0, 14, &other.to_le_bytes());
    }
    for other in [0, 1, len, len + 1, len + (1 << 32), MOST, 1 << 63, u64::MAX] {
        add(0, 22, &other.to_le_bytes());
        // And under the other flag.
        let flag = [mark.is_none() as u8];
        add(0, 13, &[&flag[..], &len.to_le_bytes(), &other.to_le_bytes()].concat());
    }
    for place in 22..30 {
        add(0, place, &[1]);
    }
    all
}

/// Other values for a byte.
pub fn other_bytes(rng: &mut Rng, byte: u8) -> Vec<u8> {
    let [more, less] = [1, 255].map(|n| byte.wrapping_add(n));
    let [one, two] = [rng.number(), rng.number()].map(|n| n as u8);
    let mut others = Vec::new();
    for value in [more, less, byte ^ 1, byte ^ 0x80, !byte, 0, 255, one, two] {
        if value != byte && !others.contains(&value) {
            others.push(value);
        }
    }
    others
}

/// Captures whose last block's check is below 15, and their files with 65,521 more there, which 16 bits hold.
pub fn checks_above() -> Vec<(Filed, Vec<u8>)> {
    let mut all = Vec::new();
    for len in 1..=5 {
        let filed = Filed::new(1, None, vec![0; len]);
        let mut file = filed.file();
        let check = 4 + 2 * len as u16 + 65_521;
        file[BLOCK..BLOCK + 2].copy_from_slice(&check.to_le_bytes());
        all.push((filed, file));
    }
    all
}

/// A block behind a file's last, with its number and so many samples that are 0.
pub fn next_block(filed: &Filed, count: u16) -> Vec<u8> {
    let mut block = vec![0; BLOCK];
    block[2..4].copy_from_slice(&count.to_le_bytes());
    block[4..8].copy_from_slice(&((filed.length() / BLOCK as u64) as u32).to_le_bytes());
    mend(&mut block);
    block
}
