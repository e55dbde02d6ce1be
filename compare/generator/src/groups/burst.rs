//! Bursts with their jumps.

use super::refused::refused_and_asked;
use super::{A, B};
use crate::document::refusals::need;
use crate::feed::Feed;
use crate::list::{append, List};
use crate::op::{Burst, Op};
use crate::shapes::{each_short, mask, Shape, Size, CHUNK};
use rng::Rng;

pub fn write(list: &mut List, rng: &mut Rng) {
    shelf(list);
    sums_beyond(list);
    edges(list);
    meeting(list);
    refusals(list);
    short(list, rng);
    every_place(list);
    chunks(list);
    for (size, count) in [(Size::Short, 8), (Size::Border, 12), (Size::Big, 4)] {
        for _ in 0..count {
            random(list, rng, size);
        }
    }
}

fn burst(mask: u16, sample: u64, max_gap: u64, tolerance: u64, budget: u64) -> Op {
    Op::Burst(Burst { mask, sample, max_gap, tolerance, budget })
}

/// Shelf examples 8 to 10.
fn shelf(list: &mut List) {
    list.holding(8, 8, &A);
    list.say(burst(1, 3, 4, 0, 1));
    list.say(burst(1, 3, 3, 0, 1));
    list.holding(8, 10, &B);
    list.say(burst(1, 5, 4, 3, 9));
}

/// Sums of places above 2^64 − 1 count as that. The Rust panics.
fn sums_beyond(list: &mut List) {
    list.holding(8, 3, &[0]);
    list.say(burst(0, u64::MAX, 2, 0, 0));
    list.holding(8, 3, &[0, 1, 0]);
    for gap in [u64::MAX - 2, u64::MAX - 1, u64::MAX] {
        for budget in [0, 1, u64::MAX] {
            list.say(burst(1, 1, gap, 0, budget));
            list.say(burst(1, 2, gap, u64::MAX, budget));
        }
    }
    for sample in [u64::MAX - 1, u64::MAX] {
        for gap in [2, u64::MAX] {
            list.say(burst(1, sample, gap, u64::MAX, 1));
            list.say(burst(1, sample, gap, 0, 1));
        }
    }
}

/// Gaps 0 to 3, places beyond the end, both sides equally near, tolerance cut by the gap.
fn edges(list: &mut List) {
    list.holding(8, 3, &[0, 1, 0]);
    list.say(burst(1, 5, 4, 3, 1));
    list.say(burst(1, 6, 4, 99, 1));
    for samples in [&[][..], &[1], &[0, 1], &[0, 1, 0], &A, &B] {
        list.holding(8, 10, samples);
        for gap in 0..4 {
            for sample in [0, 1, 3, 9, 12] {
                list.say(burst(3, sample, gap, 2, 1));
            }
        }
    }
    // Pairs at 1, 2 and 8, 9: place 5 is as near to one as to the other.
    for tolerance in 0..5 {
        for sample in 2..9 {
            list.say(burst(1, sample, 4, tolerance, 2));
        }
    }
}

/// One whose jumps stay below the budget at both ends, and two that have as many as that at the end or at the start: these
/// share changes with it and are other bursts.
fn meeting(list: &mut List) {
    list.holding(8, 10, &[0, 1, 0, 1, 0]);
    for (sample, budget) in [(2, 2), (1, 1), (3, 1)] {
        list.say(burst(1, sample, 2, 0, budget));
    }
}

fn refusals(list: &mut List) {
    let calls = [burst(1, 1, 4, 0, 1), burst(1, 0, 0, 0, 0), burst(1, u64::MAX, 9, 9, 9)];
    refused_and_asked(list, [0, 1, 0], &calls);
}

fn short(list: &mut List, rng: &mut Rng) {
    list.lend(need(1, 7));
    each_short(&[0, 1], 7, |samples| {
        let kept = rng.once_in(12);
        list.say_if(Op::Capture { channels: 8, capacity: 7 }, kept);
        list.say_if(append(8, samples), kept);
        for sample in 0..9 {
            for max_gap in 0..6 {
                for tolerance in 0..5 {
                    for budget in 0..4 {
                        let burst = burst(1, sample, max_gap, tolerance, budget);
                        list.say_if(burst, kept && rng.once_in(160));
                    }
                }
            }
        }
    });
}

/// From every place of a dense and of a sparse capture.
fn every_place(list: &mut List) {
    let dense = [0, 1, 0, 1, 1, 0, 2, 3, 1, 1, 1, 1, 1, 0, 1, 0, 0, 0, 0, 0, 0, 0, 1, 0, 0, 1];
    list.holding(8, 26, &dense);
    for sample in 0..28 {
        for (gap, budget) in [(2, 1), (3, u64::MAX), (4, 0), (5, u64::MAX), (9, 1)] {
            list.say(burst(1, sample, gap, 2, budget));
        }
    }
    // Two changes beside the border of a node, then nothing, then two more.
    list.capture(16, 4_000);
    let runs = vec![(31, 0), (1, 1), (1, 0), (990, 2), (1, 3), (1, 2), (900, 0), (40, 1), (35, 0)];
    list.say(Op::Append(Feed::Runs(runs)));
    for sample in
        [0, 30, 31, 32, 33, 34, 60, 500, 1_000, 1_022, 1_023, 1_024, 1_025, 1_900, 1_999, 3_000]
    {
        for (gap, budget) in [(2, 3), (33, 1), (41, 1), (900, 2), (1_000, 1), (5_000, u64::MAX)] {
            list.say(burst(1, sample, gap, 40, budget));
        }
    }
}

/// Bursts across the border of a chunk.
fn chunks(list: &mut List) {
    for (channels, line) in [(8, 1), (16, 1 << 12)] {
        list.capture(channels, CHUNK + 200);
        list.say(Op::Append(Feed::Runs(vec![(CHUNK - 100, 0)])));
        let pulse = [(10, line), (15, 0)];
        list.say(Op::Append(Feed::Runs(pulse.repeat(12))));
        for sample in
            [0, CHUNK - 101, CHUNK - 100, CHUNK - 1, CHUNK, CHUNK + 7, CHUNK + 199, u64::MAX]
        {
            for (gap, tolerance, budget) in [(15, 3, 9), (16, 3, 3), (16, 3, u64::MAX), (50, 90, 2)]
            {
                list.say(burst(line, sample, gap, tolerance, budget));
            }
        }
    }
}

pub fn random(list: &mut List, rng: &mut Rng, size: Size) {
    let shape = Shape::random(rng, size);
    shape.build(list);
    for _ in 0..9 {
        let max_gap = match rng.below(8) {
            0 => rng.below(3),
            1 => shape.place(rng),
            2..=4 => 2 + rng.below(6),
            _ => 2 + rng.below(1_100),
        };
        let tolerance = rng.pick(&[0, 1, 2, 30, max_gap, max_gap.saturating_sub(1), u64::MAX]);
        let budget = rng.pick(&[0, 1, 2, 9, u64::MAX]);
        let mask = mask(rng, shape.lines());
        list.say(burst(mask, shape.place(rng), max_gap, tolerance, budget));
    }
}
