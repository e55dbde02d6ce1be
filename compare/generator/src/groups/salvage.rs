//! Files with bad blocks: written, spoiled, and salvaged.

use super::file::{capacities, marked, questions, ROOM};
use crate::document::file::{length, BLOCK, HEAD};
use crate::document::{refusals::need, salvage::stretches};
use crate::filed::{next_block, noise, quiet, spotted, Filed};
use crate::list::List;
use crate::op::{Op, Store};
use crate::shapes::Size;
use crate::spoiled::{sample, spoiled, spoiled_set, WAYS};
use rng::Rng;

pub fn write(list: &mut List, rng: &mut Rng) {
    examples(list);
    neighbours(list);
    ways(list);
    listed(list);
    capacities(list, |capacity, count| Op::Salvage { capacity, count, list: 2 });
    changed_bytes(list, rng);
    other_lengths(list);
    blocks(list);
    many(list);
    for size in [Size::Short, Size::Border] {
        for _ in 0..8 {
            random_within(list, rng, size, ROOM);
        }
    }
}

/// Zeros are no file. Nothing, in unit 1, has no bad block; three samples of unit 2 with a mark are known or not.
fn examples(list: &mut List) {
    list.lend(need(1, 1));
    list.say(Op::Salvage { capacity: 1, count: 512, list: 0 });
    for filed in [Filed::new(1, None, vec![]), Filed::new(2, Some(2), vec![1, 2, 3, 4, 5, 255])] {
        let (length, capacity) = (filed.length(), filed.store.capacity);
        filed.write(list);
        for count in [0, 1, 511] {
            list.say(Op::Salvage { capacity, count, list: 2 });
        }
        for count in [length, length + 1, length + 512, 512, length - 1] {
            for numbers in [0, 1, 2, 3] {
                list.say(Op::Salvage { capacity, count, list: numbers });
            }
        }
        questions(list, filed.store.len);
        list.put_file(0, &spoiled(&filed.file(), length as usize / BLOCK - 1, sample));
        for numbers in [0, 1, 2, 3] {
            list.say(Op::Salvage { capacity, count: length, list: numbers });
        }
        questions(list, filed.store.len);
    }
}

/// Puts a file into file memory and salvages it with a list that is one number short, where there is a stretch, and with one
/// that is just enough.
pub fn asked(list: &mut List, filed: &Filed, file: &[u8]) {
    list.put_file(0, file);
    let (capacity, count) = (filed.store.capacity, file.len() as u64);
    let numbers = 2 * stretches(file).len() as u64;
    if numbers > 0 {
        list.say(Op::Salvage { capacity, count, list: numbers - 1 });
    }
    list.say(Op::Salvage { capacity, count, list: numbers });
}

/// Each set of blocks, in files of four beside block 0.
fn neighbours(list: &mut List) {
    for (unit, len) in [(1, 1_507), (2, 1_000)] {
        let filed = spotted(unit, len, Some(7));
        filed.write(list);
        for set in 0..16 {
            asked(list, &filed, &spoiled_set(&filed.file(), set, sample));
            list.say(Op::Run);
        }
    }
}

/// Each way of being bad, in each block.
fn ways(list: &mut List) {
    for (unit, len) in [(1, 602), (2, 251)] {
        let filed = spotted(unit, len, None);
        filed.write(list);
        for way in WAYS {
            for number in 0..3 {
                asked(list, &filed, &spoiled(&filed.file(), number, way));
            }
        }
        asked(list, &filed, &filed.file());
        questions(list, len);
    }
}

/// Lists from no number to more than are needed, odd counts too.
fn listed(list: &mut List) {
    for (set, most) in [(0, 2), (0b00001, 4), (0b10110, 6), (0b10101, 8)] {
        let filed = spotted(2, 1_130, None);
        filed.write(list);
        list.put_file(0, &spoiled_set(&filed.file(), set, sample));
        for numbers in 0..=most {
            let (capacity, count) = (filed.store.capacity, filed.length());
            list.say(Op::Salvage { capacity, count, list: numbers });
        }
        list.say(Op::Run);
    }
}

/// A byte here and there, in each field and in the samples; then the file as it was.
fn changed_bytes(list: &mut List, rng: &mut Rng) {
    let filed = noise(2, 400, Some(3));
    filed.write(list);
    let file = filed.file();
    for start in (0..file.len()).step_by(BLOCK) {
        let fields = (0..HEAD + 3).map(|place| start + place);
        let others = (0..4).map(|_| start + rng.below(BLOCK as u64) as usize);
        let places: Vec<usize> = fields.chain(others).collect();
        for at in places {
            let mut changed = file.clone();
            changed[at] = rng.pick(&[file[at].wrapping_add(1), file[at] ^ 0x80, !file[at]]);
            asked(list, &filed, &changed);
        }
    }
    asked(list, &filed, &file);
    questions(list, filed.store.len);
}

/// A file cut, and with something behind it: what was there before, and a block that could be the next.
fn other_lengths(list: &mut List) {
    for (unit, len) in [(1, 700), (2, 250), (1, 0)] {
        spotted(1, 1_400, None).write(list);
        let filed = spotted(unit, len, None);
        filed.write(list);
        let (length, capacity) = (filed.length(), filed.store.capacity);
        let ask = |list: &mut List| {
            for more in [1, 511, 512, 513, 1_024] {
                list.say(Op::Salvage { capacity, count: length + more, list: 0 });
            }
        };
        ask(list);
        for less in [1, 2, 100, 311, 312, 500, 511, 512, 513, 1_024] {
            let count = length.saturating_sub(less);
            list.say(Op::Says { count });
            list.say(Op::Salvage { capacity, count, list: 2 });
            list.say(Op::Run);
        }
        list.put_file(0, &[&filed.file()[..], &next_block(&filed, 0)].concat());
        ask(list);
        list.say(Op::Salvage { capacity, count: length, list: 0 });
        list.say(Op::Run);
    }
}

/// Blocks of one file in another order, and with those of another file of the same length.
fn blocks(list: &mut List) {
    let one = spotted(2, 502, None);
    let two = Filed { feed: quiet(2, 502).feed, ..noise(2, 502, Some(9)) };
    one.write(list);
    let files = [one.file(), two.file()];
    for order in [
        [0, 2, 1, 3],
        [0, 1, 3, 2],
        [0, 3, 2, 1],
        [0, 2, 3, 1],
        [0, 1, 1, 3],
        [0, 1, 2, 2],
        [0, 0, 2, 3],
        [1, 1, 2, 3],
        [4, 1, 2, 3],
        [0, 5, 2, 3],
        [0, 1, 5, 3],
        [0, 1, 2, 7],
        [0, 6, 5, 7],
    ] {
        let block = |at: usize| &files[at / 4][at % 4 * BLOCK..][..BLOCK];
        asked(list, &one, &order.map(block).concat());
        questions(list, 502);
    }
}

/// As many stretches as file memory has room for.
fn many(list: &mut List) {
    for (unit, len) in [(1, 63_500), (2, 31_749)] {
        let filed = noise(unit, len, None);
        filed.write(list);
        let numbers = (1..128).step_by(2);
        asked(list, &filed, &numbers.fold(filed.file(), |file, n| spoiled(&file, n, sample)));
        questions(list, len);
    }
}

pub fn random(list: &mut List, rng: &mut Rng, size: Size) {
    random_within(list, rng, size, u64::MAX);
}

fn random_within(list: &mut List, rng: &mut Rng, size: Size, room: u64) {
    marked(list, rng, size);
    damaged(list, rng, room);
}

/// The capture that the list holds, written, damaged here and there, and salvaged.
pub fn damaged(list: &mut List, rng: &mut Rng, room: u64) {
    let document = list.asker().document();
    let (Store { unit, len, .. }, refused) = (document.store(), document.refuses());
    if refused || length(unit, len) > room {
        return;
    }
    let length = length(unit, len);
    list.say(Op::Write { output: length });
    let capacity = (len + rng.pick(&[0, 0, 1, 40])).max(1);
    list.lend(need(unit, capacity));
    for _ in 0..2 {
        for _ in 0..rng.below(4) {
            damage(list, rng, length as usize / BLOCK);
        }
        let end = rng.below(length + 1);
        let count = rng.pick(&[length, length, length + 1, length + 700, end]).min(room);
        let file = list.asker().document().files().first(count as usize);
        let numbers = 2 * stretches(&file).len() as u64;
        let more = rng.pick(&[0, 0, 1, 40]);
        list.say(Op::Salvage { capacity: len.saturating_sub(1), count, list: numbers });
        list.say(Op::Salvage { capacity, count, list: numbers.saturating_sub(1) });
        list.say(Op::Salvage { capacity, count, list: numbers + more });
        // A refused one leaves a store that may need more than is lent here.
        if !list.asker().document().refuses() {
            questions(list, len);
        }
    }
}

/// A block of a file of so many becomes a bad one or another's; seldom block 0.
fn damage(list: &mut List, rng: &mut Rng, blocks: usize) {
    let first = (blocks > 1 && !rng.once_in(12)) as u64;
    let number = (first + rng.below(blocks as u64 - first)) as usize * BLOCK;
    let from = rng.below(blocks as u64) as usize * BLOCK;
    let files = list.asker().document().files();
    let [mut block, other] = [number, from]
        .map(|start| (start..start + BLOCK).map(|place| files.at(place)).collect::<Vec<u8>>());
    match rng.below(10) {
        0 => block = other,
        1..=3 => block[rng.below(BLOCK as u64) as usize] = rng.number() as u8,
        _ => rng.pick(&WAYS)(&mut block),
    }
    list.put_file(number, &block);
}
