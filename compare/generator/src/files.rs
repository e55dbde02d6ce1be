//! Files of the port beside the document's: of every length about the end of a block, into outputs and memory that are short,
//! enough or more; with each byte changed, with each field changed and the check made right, cut, lengthened, with blocks
//! exchanged, and of random bytes; and of the captures that the random run holds.

use crate::document::file::{length, mend, BLOCK};
use crate::document::refusals::need;
use crate::filed::{changes, checks_above, next_block, other_bytes, paddings, Filed};
use crate::groups::file::there_and_back;
use crate::groups::refused::each_memory;
use crate::list::{append, List};
use crate::op::{Op, Store};
use crate::port::Port;
use crate::shapes::CHUNK;
use crate::side::Side;
use rng::Rng;

#[derive(Default)]
pub struct Files {
    /// Where the captures are that hold the same.
    pub other: Port,
    /// Files with one byte changed, which nobody reads.
    pub changed: u64,
    /// Files written of two captures that hold the same.
    pub twice: u64,
}

impl Files {
    /// What is asked once.
    pub fn sweep(&mut self, list: &mut List, rng: &mut Rng) {
        for unit in [1, 2] {
            lengths(list, rng, unit);
            capacities(list, rng, unit);
        }
        self.each_byte(list, rng);
        fields(list, rng);
        other_lengths(list, rng);
        blocks(list, rng);
        any_bytes(list, rng);
        beginnings(list, rng);
    }

    /// The capture that the list holds, there and back; and its file by another store.
    pub fn ask(&mut self, list: &mut List, rng: &mut Rng) {
        let document = list.asker().document();
        if !document.refuses() {
            let (store, samples) = (document.store(), document.samples().to_vec());
            self.same(list, rng, store, &samples);
        }
        there_and_back(list, rng, u64::MAX);
    }

    /// A store that holds the same, and differs in capacity, in its levels and in what its memory holds past len, has the
    /// same file.
    fn same(&mut self, list: &mut List, rng: &mut Rng, store: Store, samples: &[u16]) {
        let Store { unit, len, .. } = store;
        let (channels, capacity) = (8 * unit, len + 1 + rng.below(40));
        for op in [
            Op::Lend(need(unit, capacity)),
            Op::Capture { channels, capacity },
            append(channels, samples),
            Op::Put { level: 1 + rng.below(4), index: rng.below(5), value: rng.number() as u16 },
            Op::Record(Store { capacity, ..store }),
        ] {
            self.other.take(&op);
        }
        let count = length(unit, len);
        let op = Op::Write { output: count };
        list.say(op.clone());
        let answer = self.other.take(&op);
        let asker = list.asker();
        let file = |port: &Port| port.files.first(count as usize);
        let same = asker.port().is_none_or(|port| file(port) == file(&self.other));
        if asker.ported() != answer.as_ref() || !same {
            asker.differs(&format!("a store that holds the same gives {answer:?}"));
        }
        for fault in self.other.faults() {
            asker.differs(&format!("a store that holds the same: {fault}"));
        }
        self.twice += 1;
    }

    /// Each byte of files of one, two and three blocks, with several other values: nobody reads these.
    fn each_byte(&mut self, list: &mut List, rng: &mut Rng) {
        for (unit, len, mark) in [
            (1, 0, None),
            (2, 0, Some(0)),
            (1, 499, Some(70)),
            (2, 3, Some(3)),
            (1, 501, None),
            (2, 500, Some(499)),
        ] {
            let filed = random(rng, unit, len, mark);
            let (file, capacity) = (filed.file(), filed.store.capacity);
            let count = file.len() as u64;
            for (at, &byte) in file.iter().enumerate() {
                filed.write(list);
                for value in other_bytes(rng, byte) {
                    list.say(Op::PutFile { at: at as u64, byte: value });
                    list.say(Op::Says { count });
                    list.say(Op::Read { capacity, count });
                    self.changed += 1;
                    let asker = list.asker();
                    if asker.ported().is_some_and(|answer| *answer != Err(16)) {
                        asker.differs(&format!("byte {at} is {value} and was {byte}"));
                    }
                }
            }
        }
    }
}

fn random(rng: &mut Rng, unit: u64, len: u64, mark: Option<u64>) -> Filed {
    Filed::new(unit, mark, (0..len * unit).map(|_| rng.number() as u8).collect())
}

/// Lengths around the ends of blocks, with marks anywhere; outputs that are short, enough and more.
fn lengths(list: &mut List, rng: &mut Rng, unit: u64) {
    let samples = 500 / unit;
    let around = |end: u64| end.saturating_sub(2)..=end + 2;
    let small = (0..=6).flat_map(|blocks| around(blocks * samples));
    let large = [around(131 * samples), CHUNK..=CHUNK + 1].into_iter().flatten();
    for len in small.chain(large) {
        let middle = rng.below(len + 1);
        let marks = match len {
            0..=5 => (0..=len).collect(),
            CHUNK.. => vec![middle],
            _ => vec![0, 1, middle, len - 1, len],
        };
        for mark in [None].into_iter().chain(marks.into_iter().map(Some)) {
            let filed = random(rng, unit, len, mark);
            let count = filed.length();
            filed.build(list);
            list.say(Op::FileLen);
            for output in [0, count - 1, count + 1, count + 700, count] {
                list.say(Op::Write { output });
            }
            list.say(Op::Says { count });
            list.say(Op::Read { capacity: filed.store.capacity, count });
            list.say(Op::Run);
        }
    }
}

/// Capacities of the new store, and memory that is measured by them, for a file that a capture has and for one that none has.
fn capacities(list: &mut List, rng: &mut Rng, unit: u64) {
    for len in [0, 1, 2, 32, 33, 249, 250, 251, 1_024, 1_025, 33_000] {
        let filed = random(rng, unit, len, Some(len / 2));
        let count = filed.length();
        for bad in [false, true] {
            filed.write(list);
            if bad {
                let at = rng.below(count);
                let byte = !list.asker().document().files().at(at as usize);
                list.say(Op::PutFile { at, byte });
            }
            each_memory(list, unit, len, |capacity| Op::Read { capacity, count });
        }
    }
}

/// Each field of each block with other values and the check made right; and checks that are right but for a 65,521.
fn fields(list: &mut List, rng: &mut Rng) {
    for (unit, len, mark) in
        [(1, 0, None), (2, 0, Some(0)), (1, 7, Some(3)), (2, 251, None), (1, 1_000, Some(1_000))]
    {
        let filed = random(rng, unit, len, mark);
        let file = filed.file();
        for change in changes(&filed).into_iter().chain(paddings(&filed)) {
            filed.write(list);
            asked(list, &filed, &change.made(&file));
        }
    }
    for (filed, file) in checks_above().into_iter().chain(checks_wrapped(rng)) {
        filed.write(list);
        asked(list, &filed, &file);
    }
}

/// As [`checks_above`], with samples whose sum went past 65,521.
fn checks_wrapped(rng: &mut Rng) -> Vec<(Filed, Vec<u8>)> {
    let mut all = Vec::new();
    while all.len() < 20 {
        let filed = random(rng, 1, 500, None);
        let mut file = filed.file();
        let check = u16::from_le_bytes([file[BLOCK], file[BLOCK + 1]]);
        if let Some(above) = check.checked_add(65_521) {
            file[BLOCK..BLOCK + 2].copy_from_slice(&above.to_le_bytes());
            all.push((filed, file));
        }
    }
    all
}

/// Puts a file into file memory and asks about it; memory is lent for as many samples as were there, of either unit.
fn asked(list: &mut List, filed: &Filed, file: &[u8]) {
    list.put_file(0, file);
    let count = file.len() as u64;
    list.say(Op::Says { count });
    list.say(Op::Read { capacity: filed.store.capacity, count });
}

/// Files cut, and with something behind: another file's blocks, zeros, and blocks that could be the next.
fn other_lengths(list: &mut List, rng: &mut Rng) {
    for (unit, len) in [(1, 0), (2, 0), (1, 1), (2, 249), (1, 500), (2, 250), (1, 501), (2, 500)] {
        let filed = random(rng, unit, len, None);
        let (file, count, capacity) = (filed.file(), filed.length(), filed.store.capacity);
        let longer = random(rng, unit, len + 700, None);
        for behind in [
            longer.file()[file.len()..].to_vec(),
            vec![0; 2 * BLOCK],
            next_block(&filed, 0),
            next_block(&filed, 1),
            next_block(&filed, 500),
            file[file.len() - BLOCK..].to_vec(),
            file.clone(),
        ] {
            filed.write(list);
            list.put_file(0, &[&file[..], &behind].concat());
            for more in [1, 2, 511, 512, 513, 1_024] {
                list.say(Op::Read { capacity, count: count + more });
            }
            for less in [1, 2, 500, 511, 512, 513, 1_024] {
                list.say(Op::Read { capacity, count: count.saturating_sub(less) });
            }
            list.say(Op::Read { capacity, count });
        }
        // A len that calls for the block behind, or for one fewer.
        for (other, blocks) in [(len + 500 / unit, 1), (len.saturating_sub(500 / unit), -1)] {
            let mut changed = [&file[..], &next_block(&filed, 500)].concat();
            changed[14..22].copy_from_slice(&other.to_le_bytes());
            mend(&mut changed[..BLOCK]);
            changed.truncate((count as i64 + blocks * BLOCK as i64) as usize);
            filed.write(list);
            list.lend(need(unit, capacity + 500));
            asked(list, &filed, &changed);
            list.say(Op::Read { capacity: capacity + 500, count: changed.len() as u64 });
        }
    }
}

/// Two files' blocks in any order.
fn blocks(list: &mut List, rng: &mut Rng) {
    for (unit, len, other) in [(1, 1_000, 1_000), (2, 251, 251), (2, 300, 257)] {
        let (one, two) = (random(rng, unit, len, None), random(rng, unit, other, Some(5)));
        let files = [one.file(), two.file()];
        let block = |at: usize| &files[at / 3][at % 3 * BLOCK..][..BLOCK];
        for number in 0..6 * 6 * 6 {
            let order = [number / 36, number / 6 % 6, number % 6];
            one.write(list);
            asked(list, &one, &order.map(block).concat());
            asked(list, &one, &[block(order[0]), block(order[1])].concat());
        }
    }
}

/// Random bytes, with right checks or not, and with a block 0 that some capture has or not.
fn any_bytes(list: &mut List, rng: &mut Rng) {
    for number in 0..300 {
        let unit = 1 + rng.below(2);
        let filed = random(rng, unit, 300, None);
        let mut file: Vec<u8> =
            (0..BLOCK as u64 * (1 + rng.below(3))).map(|_| rng.number() as u8).collect();
        if number % 3 > 0 {
            file[..BLOCK].copy_from_slice(&filed.file()[..BLOCK]);
        }
        if number % 2 > 0 {
            file.chunks_mut(BLOCK).for_each(mend);
        }
        filed.write(list);
        asked(list, &filed, &file);
    }
}

/// What files say over slices of every length about a block's, and over longer ones.
fn beginnings(list: &mut List, rng: &mut Rng) {
    for unit in [1, 2] {
        let filed = random(rng, unit, 600, Some(unit));
        let counts = [0, 1, 2, 11, 12, 30].into_iter().chain(480..=544).chain(1_020..=1_030);
        let counts: Vec<u64> = counts.chain([1_536, 2_048, 40_000]).collect();
        for spoiled in [None, Some(BLOCK), Some(2 * BLOCK - 1), Some(BLOCK - 1), Some(0)] {
            filed.write(list);
            if let Some(at) = spoiled {
                let byte = !list.asker().document().files().at(at);
                list.say(Op::PutFile { at: at as u64, byte });
            }
            for &count in &counts {
                list.say(Op::Says { count });
            }
        }
    }
}
