//! Shelf files: written, changed, and read again.

use super::refused::{rows_1_and_2, short_slices};
use crate::document::file::{length, mend, BLOCK, HEAD};
use crate::document::refusals::{need, MOST};
use crate::document::rules;
use crate::feed::Feed;
use crate::filed::{changes, checks_above, next_block, noise, paddings, quiet, Change, Filed};
use crate::list::{append, List};
use crate::op::{Op, Store};
use crate::shapes::{Shape, Size};
use rng::Rng;

/// File memory that a reader of the lists has room for.
pub const ROOM: u64 = 65_536;

pub fn write(list: &mut List, rng: &mut Rng) {
    examples(list);
    marks(list);
    lengths(list);
    refusals(list);
    capacities(list, |capacity, count| Op::Read { capacity, count });
    changed_bytes(list, rng);
    changed_fields(list);
    other_lengths(list);
    blocks(list);
    for size in [Size::Short, Size::Border] {
        for _ in 0..8 {
            random_within(list, rng, size, ROOM);
        }
    }
}

/// What is asked of a capture that was read.
pub fn questions(list: &mut List, len: u64) {
    list.say(Op::Run);
    list.say(Op::Whole);
    list.say(Op::Get(len.saturating_sub(1)));
    list.say(Op::Next { mask: 0xFFFF, from: len / 2 });
    list.say(Op::Encoder { a: 0, b: 1 });
}

/// Zeros are no file; nothing, in unit 1; three samples of unit 2 with a mark.
fn examples(list: &mut List) {
    list.lend(need(1, 1));
    list.say(Op::Says { count: 512 });
    list.say(Op::Read { capacity: 1, count: 512 });
    for filed in [Filed::new(1, None, vec![]), Filed::new(2, Some(2), vec![1, 2, 3, 4, 5, 255])] {
        let (length, capacity) = (filed.length(), filed.store.capacity);
        filed.build(list);
        list.say(Op::FileLen);
        for output in [0, length - 1, length, length + 1, ROOM] {
            list.say(Op::Write { output });
        }
        for count in [0, 1, 30, 511, 512, 513, 1_024] {
            list.say(Op::Says { count });
        }
        for count in [0, 1, length - 1, length + 1, length + 512, length] {
            list.say(Op::Read { capacity, count });
        }
        questions(list, filed.store.len);
        // A new store: it may grow, and is filed anew.
        list.say(Op::Read { capacity: capacity + 1, count: length });
        list.lend(need(2, capacity + 1));
        list.say(Op::Read { capacity: capacity + 1, count: length });
        list.say(append(8 * filed.store.unit, &[7]));
        list.say(Op::FileLen);
        list.say(Op::Write { output: 1_024 });
        list.say(Op::Run);
    }
}

/// None and every place up to the end, in captures of up to three samples.
fn marks(list: &mut List) {
    for unit in [1, 2] {
        for len in 0..4 {
            for mark in [None].into_iter().chain((0..=len).map(Some)) {
                let filed = Filed::new(unit, mark, vec![9; (len * unit) as usize]);
                filed.write(list);
                list.say(Op::Says { count: filed.length() });
                list.say(Op::Read { capacity: len + 1, count: filed.length() });
                list.say(Op::Read { capacity: len.max(1), count: filed.length() });
                list.say(Op::Run);
            }
        }
    }
}

/// Around the ends of blocks, and as much as file memory holds.
fn lengths(list: &mut List) {
    for unit in [1, 2] {
        let samples = 500 / unit;
        let ends = [1, 2, 3, 127].map(|blocks| blocks * samples);
        for len in ends.into_iter().flat_map(|end| [end - 1, end, end + 1]) {
            let filed = noise(unit, len, Some(len / 3));
            filed.build(list);
            list.say(Op::FileLen);
            let length = filed.length();
            list.say(Op::Write { output: ROOM.min(length - 1) });
            list.say(Op::Write { output: ROOM.min(length) });
            if length <= ROOM {
                list.say(Op::Says { count: length });
                list.say(Op::Read { capacity: len, count: length });
                questions(list, len);
            }
        }
    }
}

/// Rows 1 and 2 come ahead of 15; the length of a file asks for no memory.
fn refusals(list: &mut List) {
    for unit in [1, 2] {
        list.holding(8 * unit, 3, &[1, 2, 3]);
        let good = Store { unit, capacity: 3, len: 3, mark: None };
        let calls = [Op::Write { output: 1_024 }, Op::Write { output: 0 }, Op::FileLen];
        rows_1_and_2(list, good, &calls);
        list.say(calls[0].clone());
    }
}

/// Capacities, and memory that is measured by them, for files with a bad block 0, with another bad block, and with none:
/// 1 comes ahead of the refusal of a file, and this ahead of 15.
pub fn capacities(list: &mut List, op: impl Fn(u64, u64) -> Op) {
    for (unit, len) in [(1, 33), (2, 600)] {
        let filed = noise(unit, len, None);
        let count = filed.length();
        filed.write(list);
        for bad in [Some(20), Some(600), None] {
            let mut file = filed.file();
            if let Some(place) = bad {
                file[place] ^= 1;
            }
            list.put_file(0, &file);
            list.lend(need(unit, len));
            for capacity in [0, 1, len - 1, len, len + 1, MOST, MOST + 1, u64::MAX] {
                list.say(op(capacity, count));
            }
            list.say(Op::Run);
            for capacity in [len, len + 900] {
                let enough = need(unit, capacity);
                for lent in short_slices(enough).into_iter().chain([enough]) {
                    list.lend(lent);
                    list.say(op(capacity, count));
                }
            }
            list.say(Op::Run);
        }
    }
}

/// A byte here and there, in each field and in the samples; then the file as it was.
fn changed_bytes(list: &mut List, rng: &mut Rng) {
    for filed in [noise(1, 0, None), noise(2, 40, Some(40)), noise(1, 700, Some(3))] {
        filed.write(list);
        let (file, count, capacity) = (filed.file(), filed.length(), filed.store.capacity);
        for start in (0..file.len()).step_by(BLOCK) {
            let fields = (0..HEAD + 19).map(|place| start + place);
            let others = (0..4).map(|_| start + rng.below(BLOCK as u64) as usize);
            let places: Vec<usize> = fields.chain(others).collect();
            for at in places {
                let byte = file[at];
                let value = rng.pick(&[byte.wrapping_add(1), byte ^ 0x80, !byte]);
                list.say(Op::PutFile { at: at as u64, byte: value });
                list.say(Op::Read { capacity, count });
                if start == 0 {
                    list.say(Op::Says { count });
                }
                list.say(Op::PutFile { at: at as u64, byte });
            }
        }
        list.say(Op::Read { capacity, count });
        questions(list, filed.store.len);
    }
}

/// Fields with the check made right, and few of the paddings; and checks that are right but for a 65,521.
fn changed_fields(list: &mut List) {
    for filed in [noise(1, 0, None), noise(2, 251, Some(7))] {
        filed.write(list);
        let (file, count, capacity) = (filed.file(), filed.length(), filed.store.capacity);
        let few = |change: &Change| change.at == BLOCK - 1 || change.at.is_multiple_of(101);
        for change in changes(&filed).into_iter().chain(paddings(&filed).into_iter().filter(few)) {
            list.put_file(0, &change.made(&file));
            if change.block == 0 {
                list.say(Op::Says { count });
            }
            list.say(Op::Read { capacity, count });
        }
    }
    for (filed, file) in checks_above() {
        filed.write(list);
        list.put_file(0, &file);
        list.say(Op::Read { capacity: filed.store.capacity, count: filed.length() });
    }
}

/// A file cut, and with something behind it: what was there before, and a block that could be the next.
fn other_lengths(list: &mut List) {
    for (unit, len) in [(1, 500), (2, 3), (1, 0)] {
        quiet(1, 1_400).write(list);
        let filed = quiet(unit, len);
        filed.write(list);
        let (length, capacity) = (filed.length(), filed.store.capacity);
        let ask = |list: &mut List| {
            for more in [1, 511, 512, 513, 1_024] {
                list.say(Op::Read { capacity, count: length + more });
            }
        };
        ask(list);
        for less in [1, 2, 511, 512] {
            list.say(Op::Says { count: length - less });
            list.say(Op::Read { capacity, count: length - less });
        }
        list.put_file(0, &[&filed.file()[..], &next_block(&filed, 0)].concat());
        ask(list);
        list.say(Op::Read { capacity, count: length });
        list.say(Op::Run);
    }
}

/// Blocks of one file in another order, and with those of another file of the same length.
fn blocks(list: &mut List) {
    let one = Filed { feed: Feed::Runs(vec![(1, 300), (253, 0), (1, 3)]), ..noise(2, 255, None) };
    let two = Filed { feed: Feed::Runs(vec![(254, 0), (1, 9)]), ..noise(2, 255, Some(5)) };
    one.write(list);
    let files = [one.file(), two.file()];
    let (count, capacity) = (one.length(), one.store.capacity);
    for order in [[0, 2, 1], [0, 1, 1], [1, 0, 2], [3, 1, 2], [0, 4, 2], [0, 1, 5], [3, 4, 5]] {
        let block = |at: usize| &files[at / 3][at % 3 * BLOCK..][..BLOCK];
        list.put_file(0, &order.map(block).concat());
        list.say(Op::Says { count });
        list.say(Op::Read { capacity, count });
        questions(list, 255);
    }
}

pub fn random(list: &mut List, rng: &mut Rng, size: Size) {
    random_within(list, rng, size, u64::MAX);
}

fn random_within(list: &mut List, rng: &mut Rng, size: Size, room: u64) {
    marked(list, rng, size);
    there_and_back(list, rng, room);
}

/// A random capture, which has a mark or none.
pub fn marked(list: &mut List, rng: &mut Rng, size: Size) {
    let shape = Shape::random(rng, size);
    shape.build(list);
    let (unit, len) = (rules::unit(shape.channels), shape.len);
    if rng.once_in(2) {
        let mark = Some(rng.below(len + 1));
        list.say(Op::Record(Store { unit, capacity: shape.capacity, len, mark }));
    }
}

/// The capture that the list holds, written and read again: with bytes changed, with the check made right, and as it was.
pub fn there_and_back(list: &mut List, rng: &mut Rng, room: u64) {
    let document = list.asker().document();
    let (Store { unit, len, .. }, refused) = (document.store(), document.refuses());
    list.say(Op::FileLen);
    if refused {
        list.say(Op::Write { output: 512 });
        return;
    }
    let count = length(unit, len);
    let more = rng.pick(&[0, 0, 1, 600]);
    list.say(Op::Write { output: (count - 1).min(room) });
    list.say(Op::Write { output: (count + more).min(room) });
    if count > room {
        return;
    }
    list.say(Op::Says { count });
    let capacity = (len + rng.pick(&[0, 0, 1, 40])).max(1);
    list.lend(need(unit, capacity));
    for _ in 0..3 {
        let block = rng.below(count / BLOCK as u64) as usize * BLOCK;
        let files = list.asker().document().files();
        let was: Vec<u8> = (block..block + BLOCK).map(|place| files.at(place)).collect();
        let mut changed = was.clone();
        changed[rng.below(BLOCK as u64) as usize] = rng.number() as u8;
        if rng.once_in(2) {
            mend(&mut changed);
        }
        list.put_file(block, &changed);
        list.say(Op::Read { capacity, count });
        list.put_file(block, &was);
    }
    list.say(Op::Read { capacity: len.saturating_sub(1), count });
    list.say(Op::Read { capacity, count });
    questions(list, len);
}
