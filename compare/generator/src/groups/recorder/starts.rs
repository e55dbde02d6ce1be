//! Starts: the wish for samples before the trigger, and rows 1 to 7.

use super::{limited, term, unlimited};
use crate::document::refusals::need;
use crate::groups::refused::short_slices;
use crate::list::List;
use crate::op::Condition::{High, Low, Rising};
use crate::op::Wish::{Fraction, Seconds};
use crate::op::{Lent, Op, Settings, CONDITIONS};

pub fn write(list: &mut List) {
    wishes(list);
    refused_starts(list);
}

/// The samples kept before the trigger: one product, rounded; then floor, or halves away from zero.
fn wishes(list: &mut List) {
    let specials = [
        0.0,
        -0.0,
        5e-324,
        -5e-324,
        0.5,
        -1.0,
        1.0,
        2.0,
        1e308,
        f64::MAX,
        f64::INFINITY,
        f64::NEG_INFINITY,
    ];
    let witnesses = [0.29, 0.57, 0.58, 0.98, 0.989_999_999_999_999_9, 0.99, 0.995];
    for p in witnesses.into_iter().chain(specials) {
        for limit in [1, 100] {
            list.start(&limited(8, 100, limit, p, &[]));
        }
    }
    for limit in [1_024, 32_769, 500_000] {
        for p in [0.1, 1.0 / 3.0, 0.5, 0.7, 1.0] {
            list.start(&limited(8, 500_000, limit, p, &[term(3, Low)]));
        }
    }
    // The bound on the rate is for seconds alone.
    list.start(&Settings { rate: u64::MAX, ..limited(8, 9, 9, 0.5, &[]) });
    let halves = [0.499_999_999_999_999_94, 0.1, 0.3, 0.7, 0.999_999_999_999_999_9];
    for t in halves.into_iter().chain(specials) {
        for rate in [0, 1, 3, 5, 25] {
            list.start(&Settings { wish: Seconds(t), ..unlimited(16, 30, rate, &[]) });
        }
    }
    list.start(&Settings { wish: Seconds(1e-9), ..unlimited(8, 30, 1_000_000_000, &[]) });
    list.start(&Settings { wish: Seconds(1.5e-9), ..unlimited(8, 30, 1_000_000_000, &[]) });
    // Where the cap cuts. No recorder in reach of a reader's memory keeps so many.
    for unit in [1, 2] {
        let cap = 67_108_864 / unit;
        for rate in [cap - 1, cap, cap + 1, 1_000_000_000] {
            for time in [1.0, 0.999_999_999_999_999_9, 0.999_999_99, 0.5, f64::INFINITY] {
                list.say(Op::Pretrigger { time, rate, unit });
            }
        }
        for time in halves {
            for rate in [1, 999_999_999] {
                list.say(Op::Pretrigger { time, rate, unit });
            }
        }
    }
}

/// Rows 1 to 7, each alone and before the next ones.
fn refused_starts(list: &mut List) {
    let good = limited(8, 10, 8, 0.5, &[term(0, Rising)]);
    list.lend_for(&good);
    let full = list.lent();
    let start = |list: &mut List, s: Settings| list.say(Op::Start(s));
    for short in short_slices(full) {
        list.lend(short);
        start(list, good.clone());
        // Row 2 before rows 3 to 7, row 1 before row 2.
        start(list, Settings { terms: vec![term(16, High)], limit: 11, ..good.clone() });
        start(list, Settings { capacity: 0, ..good.clone() });
    }
    list.lend(full);
    for capacity in [0, 67_108_865, u64::MAX] {
        start(list, Settings { capacity, ..good.clone() });
        start(list, Settings { capacity, terms: vec![term(99, High)], ..good.clone() });
    }
    for line in [15, 16, 17, 255] {
        for condition in CONDITIONS {
            let terms = vec![term(0, Low), term(line, condition)];
            start(list, Settings { terms, ..good.clone() });
        }
    }
    let bad_line = vec![term(16, Low)];
    start(list, Settings { terms: bad_line, limit: 11, ..good.clone() });
    for limit in [10, 11, u64::MAX] {
        let wide = Lent { ring: 100, ..full };
        list.lend(wide);
        start(list, Settings { limit, ..good.clone() });
        // Row 4 before row 5.
        start(list, Settings { limit, wish: Seconds(0.5), ..good.clone() });
        list.lend(full);
    }
    // Row 5, also before row 6.
    for (limit, wish) in
        [(0, Fraction(0.5)), (1, Seconds(0.5)), (0, Fraction(f64::NAN)), (1, Seconds(f64::NAN))]
    {
        start(list, Settings { limit, wish, ..good.clone() });
    }
    start(list, Settings { wish: Seconds(0.5), rate: u64::MAX, ..good.clone() });
    // Row 6, also before row 7.
    let nan = f64::from_bits(0xFFF8_0000_0000_0000);
    start(list, Settings { wish: Fraction(f64::NAN), ..good.clone() });
    start(list, Settings { wish: Fraction(nan), terms: vec![], ..good.clone() });
    for (t, rate) in [
        (f64::NAN, 4),
        (nan, 1_000_000_001),
        (0.0, 1_000_000_000),
        (0.0, 1_000_000_001),
        (0.0, u64::MAX),
        (1.0, 1_000_000_001),
    ] {
        start(list, Settings { limit: 0, wish: Seconds(t), rate, ..good.clone() });
    }
    // Row 7: as many samples before the trigger as there is room, or a short ring.
    list.lend(Lent { ring: 100, ..full });
    for rate in [9, 10, 11, 1_000_000_000] {
        start(list, Settings { limit: 0, wish: Seconds(1.0), rate, ..good.clone() });
        start(list, Settings { limit: 0, wish: Seconds(1.0), rate, terms: vec![], ..good.clone() });
    }
    for (channels, unit) in [(8, 1), (16, 2)] {
        for ring in [4 * unit - 1, 4 * unit] {
            list.lend(Lent { ring, ..need(unit, 10) });
            start(list, Settings { channels, ..good.clone() });
            start(list, Settings { channels, terms: vec![], ..good.clone() });
        }
    }
}
