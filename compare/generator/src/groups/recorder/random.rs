//! Random recorders and lists of pushes.

use super::{limited, questions, term, unlimited};
use crate::document::rules;
use crate::feed::{to_bytes, Feed};
use crate::list::List;
use crate::op::Wish::Seconds;
use crate::op::{Op, Settings, Term, CONDITIONS};
use crate::shapes::{Size, BORDERS, CHANNELS, CHUNK};
use rng::Rng;

pub fn random(list: &mut List, rng: &mut Rng, size: Size) {
    let channels = rng.pick(&CHANNELS);
    let unit = rules::unit(channels);
    let capacity = match size {
        Size::Short => 1 + rng.below(14),
        Size::Border => rng.pick(&BORDERS) + rng.below(3),
        Size::Big => CHUNK + rng.below(3),
    };
    let terms = random_terms(rng);
    let settings = if rng.once_in(2) {
        let rate = rng.below(capacity + capacity.min(2));
        let t = rng.pick(&[1.0, 1.0, 0.5, 0.3, 2.0, 0.0]);
        Settings { wish: Seconds(t), ..unlimited(channels, capacity, rate, &terms) }
    } else {
        let some = 1 + rng.below(capacity);
        let limit = rng.pick(&[1, some, some, capacity]);
        let p = rng.below(1_000) as f64 / 1_000.0;
        let p = rng.pick(&[p, p, 0.0, 0.5, 0.29, 0.99, 1.0]);
        limited(channels, capacity, limit, p, &terms)
    };
    let (pre, _) = rules::pre(settings.wish, settings.limit, settings.rate, unit);
    list.start(&settings);
    if pre >= capacity {
        return;
    }
    // Few samples fire: lines 0 and 1 seldom change.
    let seldom = 1 + rng.below(9);
    let mut value = rng.below(4) as u16;
    for _ in 0..2 + rng.below(7) {
        let feed = random_push(rng, size, unit, pre, capacity, &mut value, seldom);
        list.say(Op::Push(feed));
        if rng.once_in(4) {
            list.say(Op::State);
        }
        if rng.once_in(8) {
            list.say(Op::Next { mask: 1, from: rng.below(capacity) });
        }
    }
    list.say(Op::Run);
    list.say(Op::State);
    let len = settings.limit.max(capacity / 2);
    questions(list, len, rng.below(len + 2));
    if let Size::Short = size {
        list.say(Op::Samples { start: 0, count: 40, output: 40 });
    }
}

fn random_terms(rng: &mut Rng) -> Vec<Term> {
    let count = rng.pick(&[0, 1, 1, 1, 2, 3]);
    let random = |_| {
        let line = if rng.once_in(6) { rng.below(16) } else { rng.below(2) };
        term(line as u8, rng.pick(&CONDITIONS))
    };
    (0..count).map(random).collect()
}

fn random_push(
    rng: &mut Rng,
    size: Size,
    unit: u64,
    pre: u64,
    capacity: u64,
    value: &mut u16,
    seldom: u64,
) -> Feed {
    if matches!(size, Size::Short) || rng.once_in(3) {
        let mut samples = Vec::new();
        for _ in 0..rng.below(7) {
            if rng.once_in(seldom) {
                *value = rng.below(4) as u16;
            }
            samples.push(*value);
        }
        let mut bytes = to_bytes(&samples, unit);
        if unit == 2 && rng.once_in(3) {
            bytes.push(rng.below(256) as u8);
        }
        return Feed::Bytes(bytes);
    }
    let mut runs = Vec::new();
    for _ in 0..1 + rng.below(3) {
        if rng.once_in(seldom) {
            *value = rng.below(4) as u16;
        }
        let count = match rng.below(5) {
            0 => 1 + rng.below(3),
            1 => pre.saturating_sub(1) + rng.below(3),
            2 => capacity.saturating_sub(pre + 1) + rng.below(3),
            _ => 1 + rng.below(capacity),
        };
        // Three of these are still one push.
        runs.push((count.min(10_900), *value));
    }
    Feed::Runs(runs)
}
