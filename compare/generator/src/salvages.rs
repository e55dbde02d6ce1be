//! Files with bad blocks, salvaged by the port beside the document: every set of bad blocks in each way of being bad, files
//! that end at every length, with something behind, with blocks exchanged and repeated, with each byte changed, and of random
//! bytes; into lists and memory that are short, enough or more; and of the captures that the random run holds. Of these also
//! the port's own answers side by side: what is known is the capture's, and files that agree outside some blocks give the same
//! outside them.

use crate::document::file::{mend, BLOCK, HEAD, PAYLOAD};
use crate::document::{refusals::need, rules, salvage::stretches};
use crate::feed::to_bytes;
use crate::filed::{next_block, noise, other_bytes, spotted, Filed};
use crate::groups::refused::each_memory;
use crate::groups::salvage::{asked, damaged};
use crate::list::List;
use crate::op::{Op, Store};
use crate::port::Port;
use crate::side::Side;
use crate::spoiled::{sample, spoiled_set, within, WAYS};
use rng::Rng;

#[derive(Default)]
pub struct Salvages {
    /// Where the second of two files is salvaged.
    pub other: Port,
    /// Files salvaged beside one that agrees with them outside some blocks.
    pub twice: u64,
    /// Files with one byte changed.
    pub changed: u64,
}

impl Salvages {
    /// What is asked once.
    pub fn sweep(&mut self, list: &mut List, rng: &mut Rng) {
        for unit in [1, 2] {
            sets(list, unit);
            cuts(list, unit);
            torn(list, unit);
            longer(list, unit);
            blocks(list, unit);
            lists(list, unit);
            capacities(list, unit);
            self.each_byte(list, rng, unit);
            self.agreeing(list, rng, unit);
        }
        any_bytes(list, rng);
    }

    /// The capture that the list holds, damaged in two ways within the same blocks; and what was salvaged of it, damaged
    /// here and there.
    pub fn ask(&mut self, list: &mut List, rng: &mut Rng) {
        let document = list.asker().document();
        let (store, refused) = (document.store(), document.refuses());
        if !refused && store.len < 3_000 {
            let bytes = to_bytes(document.samples(), store.unit);
            let filed = Filed::new(store.unit, store.mark, bytes);
            let set = rng.number();
            self.agree(list, rng, &filed, set);
        }
        damaged(list, rng, u64::MAX);
    }

    /// Each byte of files of three and four blocks, with several other values: exactly the block that it is in is unknown.
    fn each_byte(&mut self, list: &mut List, rng: &mut Rng, unit: u64) {
        let filed = noise(unit, 500 + 200 / unit, Some(3));
        let file = filed.file();
        let (capacity, count) = (filed.store.capacity, filed.length());
        for (at, &byte) in file.iter().enumerate() {
            filed.write(list);
            for value in other_bytes(rng, byte).into_iter().take(5) {
                list.say(Op::PutFile { at: at as u64, byte: value });
                list.say(Op::Salvage { capacity, count, list: 2 });
                self.changed += 1;
                known(list, &filed, |block| block != at / BLOCK);
                let asker = list.asker();
                let refused = asker.ported().is_some_and(|answer| *answer == Err(17));
                if asker.port().is_some() && refused != (at < BLOCK) {
                    asker.differs(&format!("byte {at} is {value} and was {byte}"));
                }
            }
        }
    }

    /// Two files that agree outside each set of blocks, of files of up to six.
    fn agreeing(&mut self, list: &mut List, rng: &mut Rng, unit: u64) {
        for filed in each_shape(unit, 5) {
            for set in 0..1 << data_blocks(&filed) {
                for _ in 0..4 {
                    self.agree(list, rng, &filed, set);
                }
            }
        }
    }

    /// Two files with this file's block 0 and the blocks that are not in the set.
    fn agree(&mut self, list: &mut List, rng: &mut Rng, filed: &Filed, set: u64) {
        let [one, two] = [(); 2].map(|()| other_blocks(rng, &filed.file(), set));
        let Store { unit, capacity, .. } = filed.store;
        let room = 2 * filed.length() / BLOCK as u64;
        filed.write(list);
        list.put_file(0, &one);
        list.say(Op::Salvage { capacity, count: one.len() as u64, list: room });
        self.other.take(&Op::Lend(need(unit, capacity)));
        self.other.files.hold(&two);
        self.other.take(&Op::Salvage { capacity, count: two.len() as u64, list: room });
        self.twice += 1;
        let asker = list.asker();
        let outside = |port: &Port| {
            let kept = |&(place, _): &(u64, _)| !within(set, block_of(unit, place));
            (port.record(), (0..).zip(port.known()).filter(kept).collect::<Vec<_>>())
        };
        let mut faults = self.other.faults();
        if asker.port().is_some_and(|port| outside(port) != outside(&self.other)) {
            faults.push(format!("outside the blocks {set:b} two files differ"));
        }
        for fault in faults {
            asker.differs(&format!("of two files that agree: {fault}"));
        }
    }
}

/// The block that has the sample at a place.
fn block_of(unit: u64, place: u64) -> usize {
    1 + (place * unit) as usize / PAYLOAD
}

/// Holds what the port left to the capture that was filed: these of its blocks are known, and no other.
fn known(list: &mut List, filed: &Filed, good: impl Fn(usize) -> bool) {
    let unit = filed.store.unit;
    let asker = list.asker();
    let (Some(port), Some(Ok(_))) = (asker.port(), asker.ported()) else {
        return;
    };
    let samples = rules::samples(&filed.feed.pieces(unit).concat(), unit);
    let right =
        (0..).zip(samples).map(|(place, sample)| good(block_of(unit, place)).then_some(sample));
    if !port.known().into_iter().eq(right) {
        let stretches: Vec<_> = port.stretches().collect();
        asker.differs(&format!("not the capture's samples: the stretches are {stretches:?}"));
    }
}

fn data_blocks(filed: &Filed) -> u64 {
    filed.length() / BLOCK as u64 - 1
}

/// Captures of up to so many blocks of samples, the last one full, short and of a lone sample, with marks.
fn each_shape(unit: u64, most: u64) -> impl Iterator<Item = Filed> {
    let each = PAYLOAD as u64 / unit;
    let lens = (0..most).flat_map(move |full| [1, 38, each].map(|last| full * each + last));
    [0].into_iter().chain(lens).enumerate().map(move |(i, len)| {
        let mark = [None, Some(0), Some(len / 2), Some(len)][i % 4];
        spotted(unit, len, mark)
    })
}

/// Every set of bad blocks, each way.
fn sets(list: &mut List, unit: u64) {
    for filed in each_shape(unit, 7) {
        let file = filed.file();
        for way in WAYS {
            for set in 0..1 << data_blocks(&filed) {
                filed.write(list);
                asked(list, &filed, &spoiled_set(&file, set, way));
                known(list, &filed, |block| !within(set, block));
            }
        }
    }
}

/// Every set of bad blocks before every end, at the end of a block, beside it and within one.
fn cuts(list: &mut List, unit: u64) {
    for filed in each_shape(unit, 4) {
        let file = filed.file();
        for there in 1..=data_blocks(&filed) {
            for less in [1, 2, 300, 500, 511, 512] {
                for set in 0..1 << (there - 1) {
                    filed.write(list);
                    let cut = (there as usize + 1) * BLOCK - less;
                    asked(list, &filed, &spoiled_set(&file, set, sample)[..cut]);
                    let torn = there as usize;
                    known(list, &filed, |block| block < torn && !within(set, block));
                }
            }
        }
    }
}

/// Files that end after each of their bytes.
fn torn(list: &mut List, unit: u64) {
    for len in [0, 7, 500 / unit, 700 / unit] {
        let filed = noise(unit, len, Some(len));
        let (capacity, length) = (filed.store.capacity, filed.length());
        for count in 0..=length + 2 {
            filed.write(list);
            list.say(Op::Salvage { capacity, count, list: 2 });
            known(list, &filed, |block| (block as u64 + 1) * BLOCK as u64 <= count);
        }
    }
}

/// Files with something behind: another file's blocks, zeros, blocks that could be the next, and its own again.
fn longer(list: &mut List, unit: u64) {
    for len in [0, 1, 249, 250, 251, 500] {
        let filed = noise(unit, len, None);
        let (file, count, capacity) = (filed.file(), filed.length(), filed.store.capacity);
        for behind in [
            noise(unit, len + 700, None).file()[file.len()..].to_vec(),
            vec![0; 2 * BLOCK],
            next_block(&filed, 0),
            next_block(&filed, 500),
            file[file.len() - BLOCK..].to_vec(),
            file.clone(),
        ] {
            filed.write(list);
            list.put_file(0, &[&file[..], &behind].concat());
            for more in [0, 1, 2, 511, 512, 513, 1_024, 20_000] {
                list.say(Op::Salvage { capacity, count: count + more, list: 0 });
                known(list, &filed, |_| true);
            }
        }
    }
}

/// Every block of a file, and of another of the same length, at every place; every two exchanged; each left out, and each
/// there twice.
fn blocks(list: &mut List, unit: u64) {
    let each = PAYLOAD as u64 / unit;
    let one = noise(unit, 4 * each, None);
    let two = spotted(unit, 4 * each, None);
    let files = [one.file(), two.file()];
    let block = |at: usize| files[at / 5][at % 5 * BLOCK..][..BLOCK].to_vec();
    let own: Vec<Vec<u8>> = (0..5).map(block).collect();
    let mut ask = |blocks: Vec<Vec<u8>>| {
        one.write(list);
        asked(list, &one, &blocks.concat());
    };
    for place in 0..5 {
        for from in 0..10 {
            let mut blocks = own.clone();
            blocks[place] = block(from);
            ask(blocks);
            let mut blocks = own.clone();
            blocks.insert(place, block(from));
            ask(blocks);
        }
        for other in 0..place {
            let mut blocks = own.clone();
            blocks.swap(place, other);
            ask(blocks);
        }
        let mut blocks = own.clone();
        blocks.remove(place);
        ask(blocks);
    }
}

/// Lists from no number to two more than are needed, and a long one.
fn lists(list: &mut List, unit: u64) {
    for filed in each_shape(unit, 6) {
        let (file, count, capacity) = (filed.file(), filed.length(), filed.store.capacity);
        for set in [0, 0b1, 0b10, 0b101, 0b110, 0b10101, 0b101010, 0b110011, 0b111111] {
            let spoiled = spoiled_set(&file, set, sample);
            filed.write(list);
            list.put_file(0, &spoiled);
            for numbers in (0..=2 * stretches(&spoiled).len() as u64 + 2).chain([1_000]) {
                list.say(Op::Salvage { capacity, count, list: numbers });
            }
        }
    }
}

/// Capacities of the new store, and memory that is measured by them, for good files, for such with a bad block, with a list
/// for it and without, and for such with a bad block 0.
fn capacities(list: &mut List, unit: u64) {
    for len in [0, 1, 2, 32, 33, 249, 250, 251, 1_024, 1_025] {
        let filed = noise(unit, len, Some(len / 2));
        let count = filed.length();
        let last = count as usize - 1;
        for (bad, numbers) in [(None, 0), (Some(last), 2), (Some(last), 1), (Some(9), 2)] {
            let mut file = filed.file();
            if let Some(at) = bad {
                file[at] ^= 1;
            }
            filed.write(list);
            list.put_file(0, &file);
            each_memory(list, unit, len, |capacity| Op::Salvage { capacity, count, list: numbers });
        }
    }
}

/// Other blocks in those places of a file that a set has: bad ones, another capture's good ones, random ones, or the same;
/// and at times those at the end are missing.
fn other_blocks(rng: &mut Rng, file: &[u8], set: u64) -> Vec<u8> {
    let mut other = file.to_vec();
    for (number, block) in other.chunks_mut(BLOCK).enumerate().skip(1) {
        if !within(set, number) {
            continue;
        }
        match rng.below(5) {
            0 => block.fill_with(|| rng.number() as u8),
            1 => {
                block[HEAD] = rng.number() as u8;
                mend(block);
            }
            2 => {}
            _ => rng.pick(&WAYS)(block),
        }
    }
    let last = file.len() / BLOCK - 1;
    let end = (1..=last).rev().take_while(|&number| within(set, number)).last();
    if let (Some(end), true) = (end, rng.once_in(3)) {
        other.truncate(end * BLOCK + rng.below(((last + 1 - end) * BLOCK) as u64) as usize);
    }
    other
}

/// Random bytes, with right checks or not, and with a block 0 that some capture has or not.
fn any_bytes(list: &mut List, rng: &mut Rng) {
    for number in 0..400 {
        let filed = noise(1 + rng.below(2), 1 + rng.below(1_200), None);
        let mut file: Vec<u8> =
            (0..rng.below(BLOCK as u64 * 5)).map(|_| rng.number() as u8).collect();
        let first = file.len().min(BLOCK);
        if number % 3 > 0 {
            file[..first].copy_from_slice(&filed.file()[..first]);
        }
        if number % 2 > 0 {
            file.chunks_exact_mut(BLOCK).for_each(mend);
        }
        filed.write(list);
        asked(list, &filed, &file);
    }
}
