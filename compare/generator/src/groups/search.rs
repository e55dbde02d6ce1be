//! Next, previous, summary and density.

use super::refused::refused_and_asked;
use super::A;
use crate::document::refusals::need;
use crate::feed::Feed;
use crate::list::{append, List};
use crate::op::Op;
use crate::shapes::{each_short, mask, Shape, Size, CHUNK};
use rng::Rng;

pub fn write(list: &mut List, rng: &mut Rng) {
    shelf(list);
    edges(list);
    refusals(list);
    short(list, rng);
    lone_changes(list, rng);
    chunks(list);
    counts(list);
    for (size, count) in [(Size::Short, 3), (Size::Border, 9), (Size::Big, 5)] {
        for _ in 0..count {
            random(list, rng, size);
        }
    }
}

fn next(mask: u16, from: u64) -> Op {
    Op::Next { mask, from }
}

fn prev(mask: u16, from: u64) -> Op {
    Op::Prev { mask, from }
}

fn summary(a: u64, b: u64) -> Op {
    Op::Summary { a, b }
}

fn density(a: u64, b: u64) -> Op {
    Op::Density { a, b }
}

/// Shelf examples 1 to 7; of 6 and 7 the counts too.
fn shelf(list: &mut List) {
    list.holding(8, 8, &A);
    list.say(next(1, 0));
    list.say(next(1, 7));
    list.say(next(1, u64::MAX));
    list.say(prev(1, 6));
    list.say(prev(1, 100));
    list.say(summary(0, 8));
    list.say(summary(4, 4));
    list.say(density(0, 8));
    list.say(density(4, 4));
}

/// Nothing stored, one sample, places at and beyond the end, masks beyond the unit.
fn edges(list: &mut List) {
    for samples in [&[][..], &[1], &[0, 1], &[255, 0, 255]] {
        for channels in [8, 16] {
            list.holding(channels, 8, samples);
            let len = samples.len() as u64;
            for place in [0, 1, len, u64::MAX - 1, u64::MAX] {
                for mask in [1, 0xFF00, 0xFFFF] {
                    list.say(next(mask, place));
                    list.say(prev(mask, place));
                }
                for (a, b) in [(0, place), (place, u64::MAX)] {
                    list.say(summary(a, b));
                    list.say(density(a, b));
                }
            }
        }
    }
}

fn refusals(list: &mut List) {
    let calls = [next(1, 0), prev(1, 2), summary(0, 3), density(0, 3)];
    refused_and_asked(list, [0, 1, 0], &calls);
}

fn short(list: &mut List, rng: &mut Rng) {
    list.lend(need(1, 5));
    each_short(&[0, 1, 2, 3], 5, |samples| {
        let kept = rng.once_in(60);
        list.say_if(Op::Capture { channels: 8, capacity: 5 }, kept);
        list.say_if(append(8, samples), kept);
        for place in 0..7 {
            for mask in 0..4 {
                list.say_if(next(mask, place), kept && rng.once_in(8));
                list.say_if(prev(mask, place), kept && rng.once_in(8));
            }
            for end in 0..7 {
                let kept = kept && rng.once_in(16);
                list.say_if(summary(place, end), kept);
                list.say_if(density(place, end), kept);
            }
        }
    });
}

/// One change beside each border, with appends cut at it, behind it or far before it,
/// and behind it less than a node, about a node of level 1, or one of level 2.
fn lone_changes(list: &mut List, rng: &mut Rng) {
    let borders = [32, 64, 1_024, 2_048, 32_768, 33_792, CHUNK];
    let places = borders.iter().flat_map(|border| [border - 1, *border, border + 1]);
    for (number, place) in [1].into_iter().chain(places).enumerate() {
        let (channels, line) = rng.pick(&[(8, 1 << 7), (16, 1 << 15), (8, 1), (16, 1)]);
        let mut ends = [rng.pick(&[1, 2, 31]), rng.pick(&[32, 33, 64]), rng.pick(&[1_024, 1_100])];
        ends.rotate_left(number % 3);
        for (end, cut) in ends.into_iter().zip([place, place + 1, place / 2]) {
            let len = place + end;
            list.capture(channels, len);
            let runs = |from: u64, to: u64| {
                let before = place.clamp(from, to) - from;
                Op::Append(Feed::Runs(vec![(before, 0), (to - from - before, line)]))
            };
            list.say(runs(0, cut));
            list.say(runs(cut, len));
            // All of these see it, or just miss it.
            for from in [0, place / 2, place - 1, place] {
                list.say(next(line, from));
            }
            for from in [len - 1, place, place - 1, u64::MAX] {
                list.say(prev(line, from));
            }
            list.say(summary(place - 1, place + 1));
            list.say(summary(place, len));
            // A change at the first place is outside.
            for (a, b) in [(0, len), (0, place), (place - 1, len), (place, len)] {
                list.say(density(a, b));
            }
        }
    }
}

/// Changes far apart: exactly at chunk borders, and nothing in whole chunks between.
fn chunks(list: &mut List) {
    for (channels, len, places) in [
        (8, 3 * CHUNK, vec![1, CHUNK, 2 * CHUNK, 3 * CHUNK - 1]),
        (8, 3 * CHUNK + 5, vec![CHUNK - 1, 2 * CHUNK + 1, 3 * CHUNK]),
        (16, 2 * CHUNK, vec![CHUNK, 2 * CHUNK - 1]),
        (16, 2 * CHUNK, vec![2 * CHUNK - 2]),
        (16, 2 * CHUNK - 1, vec![]),
    ] {
        list.capture(channels, len);
        let mut runs = Vec::new();
        let mut at = 0;
        for (i, &place) in places.iter().chain([&len]).enumerate() {
            runs.push((place - at, 1 << (i % 4)));
            at = place;
        }
        list.say(Op::Append(Feed::Runs(runs)));
        for from in places.iter().flat_map(|p| [p - 1, *p]).chain([0, CHUNK, len - 1, u64::MAX]) {
            for mask in [0xFFFF, 6] {
                list.say(next(mask, from));
                list.say(prev(mask, from));
            }
        }
        for (a, b) in [(0, len), (1, len - 1), (CHUNK - 1, CHUNK + 1), (CHUNK, 2 * CHUNK)] {
            list.say(summary(a, b));
            list.say(density(a, b));
        }
    }
}

/// Counts above 65,535, in appends of several sizes; and counts written by hand, whose sums are cut at 2^32 − 1.
fn counts(list: &mut List) {
    for (channels, mask) in [(8, 0xFF), (16, 0xFFFF)] {
        let len = 70_000;
        list.capture(channels, len);
        for (count, seed) in [(3, 1), (60_000, 2), (1, 3), (32, 4), (len - 60_036, 5)] {
            list.say(Op::Append(Feed::Noise { count, seed, mask }));
            list.say(density(0, u64::MAX));
        }
        for (a, b) in [(1, len), (0, 65_536), (0, 66_000), (5, 65_900), (59_999, 60_040)] {
            list.say(density(a, b));
        }
    }
    for channels in [8, 16] {
        // Five whole nodes of level 1 and a part of one; in the first three samples two changes.
        list.holding(channels, 200, &[vec![5, 6], vec![7; 168]].concat());
        let ranges =
            [(0, 170), (0, 96), (32, 128), (31, 161), (64, 160), (0, 64), (10, 74), (96, 170)];
        let mut ask = |node: u64, [low, high]: [u16; 2]| {
            for (half, value) in [(3, low), (4, high)] {
                list.say(Op::Put { level: 1, index: 5 * node + half, value });
            }
            for (a, b) in ranges {
                list.say(density(a, b));
            }
        };
        ask(1, [0xFFFF, 0]);
        ask(2, [1, 0]);
        ask(3, [0, 0x8000]);
        ask(4, [0xFFFF, 0x7FFF]);
        ask(2, [0xFFFF, 0xFFFF]);
        ask(1, [0xFFFF, 0xFFFF]);
        // A border more makes the sum 2^32: the third node begins with another sample.
        ask(1, [0xFFFC, 0xFFFF]);
        ask(2, [0, 0]);
        ask(3, [0, 0]);
        ask(4, [0, 0]);
        list.say(Op::Put { level: 1, index: 5 * 2, value: 6 });
        for (a, b) in ranges {
            list.say(density(a, b));
        }
    }
}

pub fn random(list: &mut List, rng: &mut Rng, size: Size) {
    let shape = Shape::random(rng, size);
    shape.build(list);
    for _ in 0..6 {
        list.say(next(mask(rng, shape.lines()), shape.place(rng)));
        list.say(prev(mask(rng, shape.lines()), shape.place(rng)));
        let (a, b) = (shape.place(rng), shape.place(rng));
        list.say(summary(a, b));
        list.say(density(a, b));
    }
}
