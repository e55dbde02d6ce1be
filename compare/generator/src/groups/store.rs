//! Append, get, samples, raw and whole.

use super::refused::{rows_1_and_2, short_slices};
use super::A;
use crate::document::refusals::need;
use crate::feed::Feed;
use crate::list::{append, List};
use crate::op::{Lent, Op, Store};
use crate::shapes::{each_short, Shape, Size, BORDERS, CHUNK};
use rng::Rng;

pub fn write(list: &mut List, rng: &mut Rng) {
    shelf(list);
    captures(list);
    refusals(list);
    leftover_bytes(list);
    full(list);
    wrong_nodes(list);
    short(list, rng);
    borders(list, rng);
    threes(list, rng);
    chunks(list);
    for size in [Size::Short, Size::Border] {
        for _ in 0..8 {
            random(list, rng, size);
        }
    }
}

/// Shelf example 16.
fn shelf(list: &mut List) {
    list.holding(8, 8, &A);
    list.say(Op::Get(8));
    list.say(Op::Get(7));
}

/// Channel counts, capacities, and memory that is exactly enough or one short.
fn captures(list: &mut List) {
    for channels in [0, 1, 7, 8, 9, 15, 16, 17, 255, u64::MAX] {
        list.capture(channels, 5);
    }
    let ask = |list: &mut List, channels, capacity| list.say(Op::Capture { channels, capacity });
    ask(list, 8, 0);
    ask(list, 8, 67_108_865);
    ask(list, 8, u64::MAX);
    // The largest capacity is fine, this memory isn't.
    ask(list, 8, 67_108_864);
    for (channels, unit) in [(8, 1), (9, 2)] {
        for capacity in [1, 33, 1_025] {
            let enough = need(unit, capacity);
            for short in short_slices(enough) {
                list.lend(short);
                ask(list, channels, capacity);
            }
            list.lend(enough);
            ask(list, channels, capacity);
        }
    }
    list.lend(Lent::default());
    ask(list, 8, 0);
}

fn refusals(list: &mut List) {
    list.capture(8, 3);
    list.say(Op::Samples { start: 1, count: u64::MAX, output: 0 });
    list.say(Op::Get(0));
    list.say(Op::Get(u64::MAX));
    for channels in [8, 16] {
        list.holding(channels, 3, &[1, 2]);
        let unit = if channels == 8 { 1 } else { 2 };
        let good = Store { unit, capacity: 3, len: 2, mark: None };
        let mut calls = vec![append(channels, &[3]), Op::Get(1), Op::Raw(0), Op::Whole];
        if channels == 8 {
            // The last three would be refused with 8, 9 and 11.
            calls.extend([
                Op::Samples { start: 0, count: 2, output: 2 },
                append(channels, &[3, 4]),
                Op::Get(2),
                Op::Samples { start: 0, count: 2, output: 1 },
            ]);
        }
        rows_1_and_2(list, good, &calls);
        // A mark at the end passes.
        list.say(Op::Record(Store { mark: Some(2), ..good }));
        for call in [Op::Get(1), Op::Raw(0), Op::Whole] {
            list.say(call);
        }
        list.say(Op::Record(good));
        list.say(Op::Run);
        list.say(append(channels, &[3, 4]));
        list.say(append(channels, &[3]));
        list.say(Op::Run);
    }
    // What is copied counts, and not what is asked for.
    list.holding(8, 8, &A);
    for (start, count, output) in [
        (0, 8, 7),
        (0, 8, 8),
        (0, 8, 9),
        (6, 100, 1),
        (6, 100, 2),
        (8, 5, 0),
        (9, u64::MAX, 0),
        (7, u64::MAX, 0),
        (7, u64::MAX, 1),
        (7, u64::MAX - 7, 1),
        (u64::MAX, 0, 0),
        (u64::MAX, 1, 0),
        (u64::MAX, u64::MAX, 3),
        (0, u64::MAX, 8),
        (3, 0, 0),
    ] {
        list.say(Op::Samples { start, count, output });
    }
}

/// A leftover byte is dropped and never joins the next append.
fn leftover_bytes(list: &mut List) {
    list.capture(16, 8);
    for bytes in [&[7][..], &[], &[1, 2, 3], &[4], &[5, 6], &[7, 8, 9, 10, 11]] {
        list.say(Op::Append(Feed::Bytes(bytes.to_vec())));
        list.say(Op::Run);
    }
    list.say(Op::Samples { start: 0, count: 8, output: 8 });
}

/// A buffer exactly full: only what stores nothing is still accepted.
fn full(list: &mut List) {
    list.capture(16, 3);
    let mut say = |bytes: &[u8]| {
        list.say(Op::Append(Feed::Bytes(bytes.to_vec())));
        list.say(Op::Run);
    };
    say(&[1, 2, 3, 4, 5, 6, 7, 8]);
    say(&[1, 2, 3, 4, 5, 6, 7]);
    say(&[8]);
    say(&[]);
    say(&[8, 9]);
    for capacity in BORDERS {
        list.capture(8, capacity);
        let runs = |runs: &[(u64, u16)]| Op::Append(Feed::Runs(runs.to_vec()));
        if capacity < 32_768 {
            list.say(runs(&[(capacity, 1), (1, 2)]));
        }
        list.say(runs(&[(capacity - 1, 1)]));
        list.say(runs(&[(2, 3)]));
        list.say(runs(&[(1, 3)]));
        list.say(runs(&[(0, 0)]));
        list.say(runs(&[(1, 3)]));
        list.say(Op::Run);
        list.say(Op::Whole);
        list.say(Op::Get(capacity - 1));
        list.say(Op::Get(capacity));
    }
}

/// Whole, over levels in which a number was changed.
fn wrong_nodes(list: &mut List) {
    for (channels, mask) in [(8, 0xFF), (16, 0xFFFF)] {
        list.capture(channels, 70_000);
        list.say(Op::Whole);
        list.say(Op::Append(Feed::Noise { count: 33_800, seed: 5, mask }));
        list.say(Op::Whole);
        // All toggle somewhere in the larger nodes, so 0 is wrong as toggles.
        for (level, node) in [(4, 0), (3, 1), (3, 0), (2, 33), (2, 32), (2, 1), (1, 1_056), (1, 32)]
        {
            list.say(Op::Put { level, index: 5 * node + 2, value: 0 });
            list.say(Op::Whole);
        }
        // Nearly every place has a change: no count is 0, and none of these has a high half.
        list.capture(channels, 70_000);
        list.say(Op::Append(Feed::Noise { count: 33_800, seed: 5, mask }));
        for (level, node, half, value) in [
            (4, 0, 4, 1),
            (3, 1, 3, 0),
            (3, 0, 3, 0),
            (2, 33, 4, 0x8000),
            (2, 1, 3, 0),
            (1, 1_056, 4, 1),
            (1, 9, 3, 0),
        ] {
            list.say(Op::Put { level, index: 5 * node + half, value });
            list.say(Op::Whole);
        }
    }
    // Numbers of no stored sample's node count for nothing; right numbers are no fault.
    list.holding(8, 200, &[9; 33]);
    let mut put = |level, index, value| {
        list.say(Op::Put { level, index, value });
        list.say(Op::Whole);
    };
    for (level, index, value) in
        [(1, 10, 9), (1, 15, 1), (2, 5, 1), (4, 0, 9), (1, 6, 9), (1, 5, 8), (1, 1, 0)]
    {
        put(level, index, value);
    }
    put(1, 1, 9);
    put(1, 5, 9);
    // Each half of a count.
    for (level, index) in [(1, 13), (4, 3), (4, 4), (2, 4), (1, 9), (1, 3)] {
        put(level, index, 1);
    }
    for (level, index) in [(1, 3), (1, 9), (2, 4), (4, 3), (4, 4)] {
        put(level, index, 0);
    }
}

fn short(list: &mut List, rng: &mut Rng) {
    list.lend(need(1, 5));
    each_short(&[0, 1, 2, 255], 5, |samples| {
        let kept = rng.once_in(140);
        list.say_if(Op::Capture { channels: 8, capacity: 5 }, kept);
        // In two appends, cut anywhere.
        let cut = rng.below(samples.len() as u64 + 1) as usize;
        list.say_if(append(8, &samples[..cut]), kept);
        list.say_if(append(8, &samples[cut..]), kept);
        list.say_if(Op::Run, kept);
        for i in 0..7 {
            list.say_if(Op::Get(i), kept && rng.once_in(7));
            for count in 0..7 {
                let samples = Op::Samples { start: i, count, output: 4 };
                list.say_if(samples, kept && rng.once_in(12));
            }
        }
    });
}

/// Lengths at and beside each border, reached by several cuts.
fn borders(list: &mut List, rng: &mut Rng) {
    for (channels, mask) in [(8, 0xFF), (16, 0xFFFF)] {
        for len in BORDERS {
            let cut = rng.pick(&[1, 3, len / 2]);
            for cut in [0, cut] {
                list.capture(channels, len + 1);
                let seed = rng.below(1 << 32);
                for count in [cut, len - cut] {
                    list.say(Op::Append(Feed::Noise { count, seed, mask }));
                }
                list.say(Op::Run);
                list.say(Op::Whole);
                list.say(Op::Density { a: 0, b: len });
                list.say(Op::Raw(0));
                list.say(Op::Raw(1));
                let i = len - 1 - rng.below(3);
                list.say(Op::Get(i));
                list.say(Op::Samples { start: i - 20, count: 40, output: 30 });
            }
        }
    }
}

/// Three samples at a time, as the encoders deliver them.
fn threes(list: &mut List, rng: &mut Rng) {
    for (channels, most) in [(8, 256), (16, 65_536)] {
        list.capture(channels, 99);
        for _ in 0..33 {
            let samples = [0; 3].map(|_| rng.below(most) as u16);
            list.say(append(channels, &samples));
        }
        list.say(Op::Run);
        list.say(Op::Whole);
        list.say(Op::Density { a: 0, b: 99 });
    }
}

/// Chunk borders, several chunks, and all the memory that a reader has.
fn chunks(list: &mut List) {
    let ones = [CHUNK - 1, CHUNK, CHUNK + 1, 2 * CHUNK, 2_200_000, 4 * CHUNK].map(|len| (8, len));
    let twos = [CHUNK - 1, CHUNK, CHUNK + 1, 2 * CHUNK].map(|len| (16, len));
    for (channels, len) in ones.into_iter().chain(twos) {
        list.capture(channels, len);
        let mask = if channels == 8 { 0xFF } else { 0xFFFF };
        let half = len / 2 + 7;
        list.say(Op::Append(Feed::Noise { count: half, seed: len, mask }));
        list.say(Op::Append(Feed::Runs(vec![(len - half - 2, 5), (1, 6), (1, 7)])));
        list.say(Op::Run);
        list.say(Op::Whole);
        list.say(Op::Density { a: 0, b: len });
        for chunk in [0, 1, 2, 3, 4, 1 << 44, u64::MAX] {
            list.say(Op::Raw(chunk));
        }
        for i in [half - 1, half, CHUNK - 2, CHUNK - 1, CHUNK, len - 2, len - 1, len] {
            list.say(Op::Get(i));
        }
        list.say(Op::Samples { start: CHUNK - 3, count: 6, output: 6 });
        list.say(append(channels, &[1]));
        list.say(append(channels, &[]));
    }
}

pub fn random(list: &mut List, rng: &mut Rng, size: Size) {
    let shape = Shape::random(rng, size);
    shape.build(list);
    list.say(Op::Run);
    list.say(Op::Whole);
    list.say(Op::Density { a: 0, b: u64::MAX });
    for _ in 0..3 {
        list.say(Op::Get(shape.place(rng)));
        let start = shape.place(rng);
        let count = rng.pick(&[0, 1, 5, 30, u64::MAX]).min(rng.pick(&[30, u64::MAX]));
        let left = shape.len.saturating_sub(start);
        // A long copy is refused: its answer would be long too.
        let output = if left.min(count) > 40 { 40 } else { rng.pick(&[0, 5, 40, 40]) };
        list.say(Op::Samples { start, count, output });
        let any = shape.place(rng);
        list.say(Op::Raw(rng.pick(&[0, 1, 2, any])));
    }
    let room = shape.capacity - shape.len;
    let samples = vec![1; rng.pick(&[room.min(50), room.min(50) + 1]) as usize];
    list.say(append(shape.channels, &samples));
    list.say(Op::Run);
}
