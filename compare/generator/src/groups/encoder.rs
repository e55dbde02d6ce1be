//! An encoder replayed from two lines.

use super::refused::refused_and_asked;
use crate::document::refusals::need;
use crate::feed::Feed;
use crate::list::{append, List};
use crate::op::Op;
use crate::shapes::{each_short, line, Shape, Size, CHUNK, NO_LINES};
use rng::Rng;

pub fn write(list: &mut List, rng: &mut Rng) {
    order(list);
    edges(list);
    pairs(list, rng);
    refusals(list);
    short(list, rng);
    lone_changes(list, rng);
    there_and_back(list, rng);
    chunks(list);
    for (size, count) in [(Size::Short, 12), (Size::Border, 12), (Size::Big, 4)] {
        for _ in 0..count {
            random(list, rng, size);
        }
    }
}

fn encoder(a: u64, b: u64) -> Op {
    Op::Encoder { a, b }
}

/// CR 6's order, its reverse, and a skip before a step; then with A and B exchanged.
fn order(list: &mut List) {
    for samples in [&[0, 1, 3, 2, 0][..], &[0, 2, 3, 1, 0], &[0, 3, 1], &[0, 3, 2, 1, 5]] {
        list.holding(8, 8, samples);
        list.say(encoder(0, 1));
        list.say(encoder(1, 0));
    }
}

/// Nothing stored, one sample, and every two; lines that unit 1 lacks.
fn edges(list: &mut List) {
    for channels in [8, 16] {
        let (a, b) = (channels - 1, channels - 3);
        let sample = |state: u16| (state & 1) << a | (state >> 1) << b;
        let mut ask = |samples: &[u16]| {
            list.holding(channels, 2, samples);
            list.say(encoder(a, b));
        };
        ask(&[]);
        for first in 0..4 {
            ask(&[sample(first)]);
            for second in 0..4 {
                ask(&[sample(first), sample(second)]);
            }
        }
    }
    list.holding(8, 5, &[0, 255, 1, 0, 255]);
    for (a, b) in [(8, 15), (0, 15), (15, 0), (7, 8), (8, 7), (7, 0)] {
        list.say(encoder(a, b));
    }
}

/// Every two lines, equal ones too, and lines above 15.
fn pairs(list: &mut List, rng: &mut Rng) {
    for channels in [8, 16] {
        let samples: Vec<u16> = (0..90).map(|_| rng.below(1 << channels) as u16).collect();
        list.holding(channels, 90, &samples);
        for a in 0..16 {
            for b in 0..16 {
                list.say(encoder(a, b));
            }
        }
        for line in NO_LINES {
            for (a, b) in [(line, 0), (1, line), (line, line), (line, 16)] {
                list.say(encoder(a, b));
            }
        }
    }
}

/// Rows 1 and 2 come ahead of row 14.
fn refusals(list: &mut List) {
    let calls = [encoder(0, 1), encoder(1, 1), encoder(0, 16)];
    refused_and_asked(list, [0, 1, 3], &calls);
}

fn short(list: &mut List, rng: &mut Rng) {
    list.lend(need(1, 5));
    each_short(&[0, 1, 2, 3], 5, |samples| {
        let kept = rng.once_in(16);
        list.say_if(Op::Capture { channels: 8, capacity: 5 }, kept);
        list.say_if(append(8, samples), kept);
        for (a, b) in [(0, 1), (1, 0), (0, 2), (9, 1)] {
            list.say_if(encoder(a, b), kept);
        }
    });
}

/// One line or both change beside each border, with appends cut at it, behind it or far before it, and behind it less than
/// a node, about a node of level 1, or one of level 2.
fn lone_changes(list: &mut List, rng: &mut Rng) {
    let borders = [32, 64, 128, 256, 512, 1_024, 2_048, 32_768, 33_792, CHUNK];
    let places = borders.iter().flat_map(|border| [border - 1, *border, border + 1]);
    for (number, place) in [1].into_iter().chain(places).enumerate() {
        let (channels, a, b) = rng.pick(&[(8, 3, 4), (16, 11, 12), (8, 0, 7), (16, 15, 0)]);
        let mut ends = [rng.pick(&[1, 2, 31]), rng.pick(&[32, 33, 64]), rng.pick(&[1_024, 1_100])];
        ends.rotate_left(number % 3);
        let mut changes = [1 << a, 1 << b, 1 << a | 1 << b];
        changes.rotate_left(number / 3 % 3);
        for ((end, cut), change) in ends.into_iter().zip([place, place + 1, place / 2]).zip(changes)
        {
            let len = place + end;
            list.capture(channels, len);
            let before = rng.pick(&[0, 1 << a, 1 << b, 1 << a | 1 << b]);
            for (from, to) in [(0, cut), (cut, len)] {
                let first = place.clamp(from, to) - from;
                let runs = vec![(first, before), (to - from - first, before ^ change)];
                list.say(Op::Append(Feed::Runs(runs)));
                list.say(encoder(a, b));
            }
        }
    }
}

/// A run, its reverse, and both one after the other, three times over.
fn there_and_back(list: &mut List, rng: &mut Rng) {
    for (channels, a, b) in [(8, 6, 2), (16, 9, 14)] {
        let mut sample = || (rng.below(2) << a | rng.below(2) << b) as u16;
        let run: Vec<u16> = (0..23).map(|_| sample()).collect();
        let back: Vec<u16> = run.iter().rev().copied().collect();
        for samples in [&run, &back] {
            list.holding(channels, 140, samples);
            list.say(encoder(a, b));
        }
        list.capture(channels, 140);
        for _ in 0..3 {
            for samples in [&run, &back] {
                list.say(append(channels, samples));
                list.say(encoder(a, b));
            }
        }
    }
}

/// Steps far apart, exactly at chunk borders and in the last place, and a chunk in which only other lines change.
fn chunks(list: &mut List) {
    for (channels, a, b) in [(8, 3, 4), (16, 11, 12)] {
        let len = 3 * CHUNK + 5;
        let capacity = if channels == 8 { len } else { 2 * CHUNK };
        let order = [0, 1 << a, 1 << a | 1 << b, 1 << b];
        let places = [1, CHUNK, 2 * CHUNK - 1, 2 * CHUNK, 3 * CHUNK, len - 1];
        list.capture(channels, capacity);
        let mut at = 0;
        for (i, end) in places.into_iter().chain([len]).enumerate() {
            let end = end.min(capacity);
            list.say(Op::Append(Feed::Runs(vec![(end - at, order[i % 4])])));
            at = end;
        }
        list.say(encoder(a, b));
        list.say(encoder(b, a));
        list.capture(channels, CHUNK + 700);
        list.say(Op::Append(Feed::Runs(vec![(500, 0)])));
        let mask = 0xE5 & !(1 << a | 1 << b);
        list.say(Op::Append(Feed::Noise { count: CHUNK, seed: 8, mask }));
        list.say(Op::Append(Feed::Runs(vec![(200, 1 << b)])));
        list.say(encoder(a, b));
        list.say(encoder(0, b));
    }
}

pub fn random(list: &mut List, rng: &mut Rng, size: Size) {
    let shape = Shape::random(rng, size);
    shape.build(list);
    list.say(encoder(0, 1));
    for _ in 0..if let Size::Big = size { 1 } else { 5 } {
        list.say(encoder(line(rng, shape.lines()), line(rng, shape.lines())));
    }
}
