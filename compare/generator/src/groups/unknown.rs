//! Searches across unknown stretches.

use super::refused::refused_and_asked;
use super::A;
use crate::document::{refusals::need, rules};
use crate::feed::Feed;
use crate::list::{append, List};
use crate::op::{Across, Op, Sort, Way, SEARCHES};
use crate::shapes::{each_short, mask, Shape, Size, CHUNK};
use crate::stretches::{about, of_set, random as any_list, spoiled, WAYS};
use rng::Rng;

pub fn write(list: &mut List, rng: &mut Rng) {
    by_hand(list);
    row_18(list);
    refusals(list);
    ways(list, rng);
    short(list, rng);
    lone_changes(list, rng);
    chunks(list);
    for (size, count) in [(Size::Short, 6), (Size::Border, 8), (Size::Big, 3)] {
        for _ in 0..count {
            random(list, rng, size);
        }
    }
}

/// The four searches of these.
pub fn four(mask: u16, from: u64, stretches: &[u64]) -> [Op; 4] {
    SEARCHES.map(|search| across(search, mask, from, stretches))
}

pub fn across((sort, way): (Sort, Way), mask: u16, from: u64, stretches: &[u64]) -> Op {
    Op::Across(Across { sort, way, mask, from, stretches: stretches.to_vec() })
}

pub fn ask(list: &mut List, mask: u16, from: u64, stretches: &[u64]) {
    for op in four(mask, from, stretches) {
        list.say(op);
    }
}

/// Line 0 of A changes at 2, 4 and 7, line 1 at 5. Places 2 and 3 are unknown, so 2 to 4 are possible, and 4, right after
/// them, is not certain. Then the first sample, the last, both, all and none.
fn by_hand(list: &mut List) {
    list.holding(8, 8, &A);
    for from in [0, 1, 2, 3, 4, 6, 7, 8, u64::MAX] {
        ask(list, 1, from, &[2, 2]);
    }
    for stretches in [&[0, 1][..], &[0, 2], &[7, 1], &[6, 2], &[0, 1, 7, 1], &[0, 8], &[]] {
        for from in [0, 6, 7] {
            ask(list, 1, from, stretches);
        }
    }
    // Lines that unit 1 lacks, no line, and lines that never changed.
    for mask in [0x100, 0xFF00, 0x8000, 0, 0x80, 0x180, 2] {
        for from in [0, 7] {
            ask(list, mask, from, &[2, 2]);
        }
    }
    list.holding(16, 8, &A);
    for mask in [0x100, 0x8000, 0] {
        ask(list, mask, 0, &[2, 2]);
    }
}

/// The borders of row 18: numbers that are odd, counts of 0, ends at len and one past it, sums beyond 64 bits, and a next
/// stretch that touches, overlaps, is the same, lies before, or leaves one sample known.
fn row_18(list: &mut List) {
    const MAX: u64 = u64::MAX;
    list.holding(8, 9, &A);
    let lists: [&[u64]; 30] = [
        &[],
        &[2],
        &[2, 2, 5],
        &[2, 2, 5, 1, 7],
        &[2, 0],
        &[8, 0],
        &[2, 2, 5, 0],
        &[7, 1],
        &[7, 2],
        &[8, 1],
        &[9, 1],
        &[0, 8],
        &[0, 9],
        &[2, 6],
        &[2, 7],
        &[2, 2, 4, 1],
        &[2, 2, 3, 1],
        &[2, 2, 2, 2],
        &[5, 1, 2, 2],
        &[2, 2, 5, 1],
        &[2, 2, 5, 3],
        &[0, 1, 2, 1, 4, 1, 6, 1],
        &[0, 1, 2, 1, 4, 2, 6, 1],
        &[MAX, 1],
        &[1, MAX],
        &[MAX, MAX],
        &[1 << 63, 1 << 63],
        &[MAX - 7, 8],
        &[MAX - 7, 16],
        &[2, 2, 5, MAX - 4],
    ];
    for stretches in lists {
        ask(list, 1, 3, stretches);
    }
    list.holding(8, 9, &[]);
    for stretches in [&[][..], &[0], &[0, 0], &[0, 1], &[1, MAX]] {
        ask(list, 1, 0, stretches);
    }
}

/// Rows 1 and 2 come ahead of row 18.
fn refusals(list: &mut List) {
    let [good, bad] = [&[1, 1][..], &[1]].map(|stretches| four(1, 0, stretches));
    let calls = [&good[..1], &bad[1..2], &good[2..3], &bad[3..]].concat();
    refused_and_asked(list, [0, 1, 0], &calls);
}

/// Each way of being bad, at the first, the middle and the last stretch.
fn ways(list: &mut List, rng: &mut Rng) {
    let samples: Vec<u16> = (0..40).map(|i| i / 3 % 4).collect();
    for (channels, stretches) in [(8, [3, 2, 7, 1, 20, 9]), (16, [0, 1, 2, 30, 39, 1])] {
        list.holding(channels, 40, &samples);
        for way in WAYS {
            for at in [0, 2, 4] {
                let mut bad = stretches.to_vec();
                way(&mut bad, at, 40);
                list.say(across(rng.pick(&SEARCHES), 1, 19, &bad));
            }
        }
        ask(list, 1, 19, &stretches);
    }
}

/// Every set of unknown places.
fn short(list: &mut List, rng: &mut Rng) {
    for (channels, values) in [(8, [0, 1, 0x81]), (16, [0, 0x100, 0x8001])] {
        list.lend(need(rules::unit(channels), 4));
        each_short(&values, 4, |samples| {
            let kept = rng.once_in(20);
            list.say_if(Op::Capture { channels, capacity: 4 }, kept);
            list.say_if(append(channels, samples), kept);
            let len = samples.len() as u64;
            for set in 0..1 << len {
                for mask in [1, 0x8100, 0xFFFF] {
                    for from in 0..=len {
                        let kept = kept && rng.once_in(90);
                        for op in four(mask, from, &of_set(set)) {
                            list.say_if(op, kept);
                        }
                    }
                }
            }
        });
    }
}

/// One change beside each border, and a stretch at it, beside it or far over it.
fn lone_changes(list: &mut List, rng: &mut Rng) {
    for border in [32, 1_024, 32_768, CHUNK] {
        for place in [border - 1, border, border + 1] {
            let (channels, line) = rng.pick(&[(8, 1 << 7), (16, 1 << 15), (8, 1), (16, 1)]);
            let len = border + rng.pick(&[3, 33, 64]);
            list.capture(channels, len);
            list.say(Op::Append(Feed::Runs(vec![(place, 0), (len - place, line)])));
            for stretches in about(border, len) {
                let from = border - 2 + rng.below(4);
                let from = rng.pick(&[0, from, from, u64::MAX]);
                let search = rng.pick(&SEARCHES);
                list.say(across(search, line, from, &stretches));
            }
        }
    }
}

/// Stretches over whole chunks and up to their borders.
fn chunks(list: &mut List) {
    let len = 3 * CHUNK + 5;
    list.capture(8, len);
    let runs = [(CHUNK - 1, 0), (1, 1), (CHUNK, 2), (1, 3), (CHUNK, 1), (4, 0)];
    list.say(Op::Append(Feed::Runs(runs.to_vec())));
    for (number, stretches) in [
        &[0, CHUNK][..],
        &[CHUNK, CHUNK],
        &[CHUNK - 1, CHUNK + 2],
        &[CHUNK - 1, 1, 2 * CHUNK, 1],
        &[0, CHUNK - 1, 2 * CHUNK, 2],
        &[1, 1, 2 * CHUNK, CHUNK + 5],
        &[0, len],
        &[3 * CHUNK + 1, 1],
        &[],
    ]
    .into_iter()
    .enumerate()
    {
        let froms = [[0, CHUNK], [2 * CHUNK + 1, u64::MAX]];
        for from in froms[number % 2] {
            ask(list, 3, from, stretches);
        }
    }
}

pub fn random(list: &mut List, rng: &mut Rng, size: Size) {
    let shape = Shape::random(rng, size);
    shape.build(list);
    let asked = if let Size::Big = size { 2 } else { 4 };
    for _ in 0..asked {
        let mut stretches = any_list(rng, shape.len);
        // A line of a list has room for few of them.
        stretches.truncate(40);
        if rng.once_in(8) {
            stretches = spoiled(rng, &stretches, shape.len);
        }
        ask(list, mask(rng, shape.lines()), shape.place(rng), &stretches);
    }
}
