//! Rows of pixels.

use super::refused::rows_1_and_2;
use super::{A, ONE_HOT};
use crate::feed::Feed;
use crate::list::List;
use crate::op::{Op, Store, View};
use crate::shapes::{Shape, Size, CHUNK};
use rng::Rng;

/// Numbers that floor, round or overflow in ways of their own.
pub const SPECIAL: [f64; 34] = [
    0.0,
    -0.0,
    5e-324,
    -5e-324,
    f64::MIN_POSITIVE,
    -f64::MIN_POSITIVE,
    0.1,
    0.3,
    1.0 / 3.0,
    0.5,
    -0.5,
    0.7,
    0.999_999_999_999_999_9,
    1.0,
    -1.0,
    1.5,
    2.0,
    -2.0,
    7.0,
    8.0,
    31.0,
    32.999_999_999_999_99,
    4_503_599_627_370_495.5,
    9_007_199_254_740_993.0,
    9_223_372_036_854_775_808.0,
    18_446_744_073_709_549_568.0,
    18_446_744_073_709_551_616.0,
    -18_446_744_073_709_551_616.0,
    1.7e308,
    -1.7e308,
    f64::MAX,
    f64::NAN,
    f64::INFINITY,
    f64::NEG_INFINITY,
];

pub fn write(list: &mut List, rng: &mut Rng) {
    shelf(list);
    beyond(list);
    witnesses(list);
    refusals(list);
    special(list, rng);
    widths(list);
    zooms(list);
    chunks(list);
    for (size, count) in [(Size::Short, 12), (Size::Border, 14), (Size::Big, 4)] {
        for _ in 0..count {
            random(list, rng, size);
        }
    }
}

fn render(start: f64, spp: f64, width: u64) -> Op {
    Op::Render(View { start, spp, width, output: 2 * width })
}

/// Shelf examples 11 and 12.
fn shelf(list: &mut List) {
    list.holding(8, 8, &A);
    list.say(render(0.0, 4.0, 2));
    list.say(render(1.5, 0.5, 1));
}

/// A drawn pixel whose edge is 2^64 or more: the Rust panics.
fn beyond(list: &mut List) {
    let two_64 = 18_446_744_073_709_551_616.0;
    let below = 18_446_744_073_709_549_568.0;
    for samples in [&[1][..], &[], &ONE_HOT] {
        list.holding(8, 8, samples);
        list.say(render(0.0, two_64, 1));
        list.say(render(0.0, below, 1));
        list.say(render(-1.0, two_64, 1));
        list.say(render(-1.7e308, 1.7e308, 2));
        list.say(render(-1.7e308, 1.7e308, 4));
        list.say(render(1.7e308, -1.7e308, 4));
        list.say(render(0.0, f64::MAX, 3));
        list.say(render(f64::MAX, f64::MAX, 2));
        list.say(render(-f64::MAX, -f64::MAX, 2));
    }
}

/// Where fused or exact arithmetic gives another edge; also the end before the start, and below 0.
fn witnesses(list: &mut List) {
    list.holding(8, 8, &ONE_HOT);
    for (start, spp, width) in [
        (0.3, 0.7, 2),
        (0.1, 0.3, 4),
        (-1.0, 1.0 / 3.0, 4),
        (-0.0, 1.0, 1),
        (-0.0, 0.0, 2),
        (-5e-324, 0.0, 2),
        (-5e-324, 1.0, 2),
        (0.0, 0.0, 3),
        (7.0, -1.0, 9),
        (7.999, -0.5, 16),
        (7.0, 0.0, 2),
        (8.0, 0.0, 2),
        (8.0, -3.0, 3),
        (-0.5, 0.25, 4),
        (-3.0, 2.0, 6),
        (0.0, 8.0, 2),
        (0.0, 7.0, 2),
        (0.0, 9.0, 1),
        (6.5, 0.5, 4),
    ] {
        list.say(render(start, spp, width));
    }
}

fn refusals(list: &mut List) {
    for (channels, unit) in [(8, 1), (16, 2)] {
        list.holding(channels, 3, &[0, 1, 0]);
        let good = Store { unit, capacity: 3, len: 3, mark: None };
        let view = View { start: 0.0, spp: 1.0, width: 2, output: 4 };
        // The last two would be refused with 10 and 11.
        let calls = [view, View { spp: f64::NAN, ..view }, View { output: 3, ..view }];
        let calls = calls.map(Op::Render);
        rows_1_and_2(list, good, &calls);
        for call in calls {
            list.say(call);
        }
        for (start, spp, width, output) in [
            (0.0, 1.0, 0, 0),
            (0.0, 1.0, 1, 1),
            (0.0, 1.0, 1, 3),
            (0.0, 1.0, 65_537, 131_074),
            (0.0, 1.0, u64::MAX, 131_074),
            (0.0, 1.0, 1 << 63, 0),
            (f64::NAN, 1.0, 0, 0),
            (f64::NAN, 1.0, 65_537, 0),
            (f64::INFINITY, 1.0, 2, 3),
            (f64::NEG_INFINITY, 1.0, 2, 4),
            (0.0, f64::INFINITY, 2, 4),
            (0.0, f64::NEG_INFINITY, 2, 4),
            (f64::from_bits(0xFFF0_0000_0000_0001), 0.0, 1, 2),
        ] {
            list.say(Op::Render(View { start, spp, width, output }));
        }
        list.say(Op::RenderDigest(View { start: 0.0, spp: 1e-5, width: 65_536, output: 131_071 }));
    }
}

fn special(list: &mut List, rng: &mut Rng) {
    let noise: Vec<u16> = (0..40).map(|_| rng.below(256) as u16).collect();
    for samples in [&[][..], &[1], &ONE_HOT, &noise] {
        list.holding(8, 40, samples);
        for start in SPECIAL {
            for spp in SPECIAL {
                for width in 1..4 {
                    let line = list.ask(render(start, spp, width));
                    if rng.once_in(40) {
                        list.write(&line);
                    }
                }
            }
        }
    }
}

/// No pixel, and as many as are allowed.
fn widths(list: &mut List) {
    for (channels, mask) in [(8, 0xFF), (16, 0xFFFF)] {
        list.capture(channels, 70_000);
        list.say(Op::Append(Feed::Noise { count: 66_000, seed: 77, mask }));
        for (start, spp) in [(0.0, 1.0), (-5.0, 1.01), (65_999.0, -1.0), (0.25, 1e-3), (0.0, 0.0)] {
            for width in [0, 1, 1_920, 65_535, 65_536] {
                let view = View { start, spp, width, output: 131_072 };
                list.say(Op::RenderDigest(view));
            }
        }
    }
}

/// Pixels of half a sample up to thousands, beginning at a border or beside it.
fn zooms(list: &mut List) {
    for channels in [8, 16] {
        list.capture(channels, 34_000);
        let runs = vec![(31, 0), (1, 1), (992, 3), (1, 2), (31_743, 6), (1, 7), (1_000, 5)];
        list.say(Op::Append(Feed::Runs(runs)));
        for start in [0.0, 30.0, 31.5, 1_022.0, 1_023.0, 32_766.0, 32_767.9, 33_700.0] {
            for spp in [0.5, 1.0, 10.0, 32.0, 1_000.0, 33_769.0] {
                list.say(render(start, spp, 5));
            }
        }
    }
}

fn chunks(list: &mut List) {
    for (channels, len, mask) in [(8, 2 * CHUNK + 9, 0xFF), (16, 2 * CHUNK, 0xFFFF)] {
        list.capture(channels, len);
        list.say(Op::Append(Feed::Runs(vec![(CHUNK - 1, 0), (1, 1), (CHUNK - 500, 3)])));
        list.say(Op::Append(Feed::Noise { count: len - 2 * CHUNK + 500, seed: 3, mask }));
        let edge = CHUNK as f64;
        for start in [edge - 2.0, edge - 1.0, edge, 2.0 * edge - 3.0, 0.0] {
            for spp in [0.5, 1.0, 700.0, edge] {
                list.say(render(start, spp, 4));
            }
        }
        let spp = len as f64 / 1_920.0;
        list.say(Op::RenderDigest(View { start: 0.0, spp, width: 1_920, output: 3_840 }));
    }
}

pub fn random(list: &mut List, rng: &mut Rng, size: Size) {
    let shape = Shape::random(rng, size);
    shape.build(list);
    for _ in 0..8 {
        let place = shape.place(rng) as f64;
        let start = match rng.below(6) {
            0 => rng.pick(&SPECIAL),
            1 => -place / 7.0,
            2 => place,
            _ => place + rng.below(1_000) as f64 / 1_000.0 - 0.5,
        };
        let spp = match rng.below(8) {
            0 => rng.pick(&SPECIAL),
            1 => f64::from_bits(rng.number()),
            2 => shape.len as f64 / (1 + rng.below(9)) as f64,
            3 => -(rng.below(300) as f64) / 100.0,
            4 => rng.pick(&[31.0, 32.0, 33.0, 1_024.0]),
            _ => rng.below(5_000) as f64 / 1_000.0,
        };
        let width = rng.below(9);
        let output = 2 * width + rng.pick(&[0, 0, 0, 0, 1]) - rng.pick(&[0, 0, 0, 1]).min(width);
        list.say(Op::Render(View { start, spp, width, output }));
    }
}
