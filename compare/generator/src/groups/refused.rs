//! Rows 1 and 2 of document 01's table, for any call on a store; and the capacities and the memory of a new one.

use crate::document::refusals::{need, MOST};
use crate::list::List;
use crate::op::{Lent, Op, Store};

/// Asks these calls over each bad record and each short slice.
/// `good` is the record that the list's calls have made.
pub fn rows_1_and_2(list: &mut List, good: Store, calls: &[Op]) {
    let full = list.lent();
    for bad in bad_records(good) {
        list.say(Op::Record(bad));
        say_all(list, calls);
    }
    list.say(Op::Record(good));
    for short in short_slices(full) {
        list.lend(short);
        say_all(list, calls);
    }
    // Row 1 comes before row 2.
    list.say(Op::Record(Store { unit: 0, ..good }));
    say_all(list, calls);
    list.say(Op::Record(good));
    list.lend(full);
}

/// Rows 1 and 2 of these calls on a capture of three samples, and what they answer over it, in both units.
pub fn refused_and_asked(list: &mut List, samples: [u16; 3], calls: &[Op]) {
    for (channels, unit) in [(8, 1), (16, 2)] {
        list.holding(channels, 3, &samples);
        rows_1_and_2(list, Store { unit, capacity: 3, len: 3, mark: None }, calls);
        say_all(list, calls);
    }
}

fn say_all(list: &mut List, calls: &[Op]) {
    for call in calls {
        list.say(call.clone());
    }
}

fn bad_records(good: Store) -> Vec<Store> {
    let Store { capacity, len, .. } = good;
    vec![
        Store { unit: 0, ..good },
        Store { unit: 3, ..good },
        Store { capacity: 0, len: 0, mark: None, ..good },
        // Row 2: a capacity that is allowed, over memory for a smaller one.
        Store { capacity: 67_108_864, ..good },
        Store { capacity: 67_108_865, ..good },
        Store { capacity: u64::MAX, ..good },
        Store { len: capacity + 1, ..good },
        Store { len: u64::MAX, ..good },
        Store { mark: Some(len + 1), ..good },
        Store { mark: Some(u64::MAX), ..good },
    ]
}

/// Each slice in turn one short, then all of them empty.
pub fn short_slices(full: Lent) -> Vec<Lent> {
    let mut all = vec![Lent { samples: full.samples - 1, ..full }];
    for level in 0..4 {
        let mut levels = full.levels;
        levels[level] -= 1;
        all.push(Lent { levels, ..full });
    }
    all.push(Lent { ring: full.ring, ..Lent::default() });
    all
}

/// Asks with capacities that are none, that are below len and from it on, and for the last with memory that is short by one,
/// enough and more.
pub fn each_memory(list: &mut List, unit: u64, len: u64, op: impl Fn(u64) -> Op) {
    for capacity in [0, len.saturating_sub(1), len / 2, MOST, MOST + 1, 1 << 63, u64::MAX] {
        list.say(op(capacity));
    }
    for capacity in [len, len + 1, len + 31, len + 32, len + 1_500] {
        if capacity == 0 {
            continue;
        }
        let enough = need(unit, capacity);
        let shorts = short_slices(enough).into_iter().chain([need(unit, len)]);
        for lent in shorts.chain([enough, need(2, capacity + 70)]) {
            list.lend(lent);
            list.say(op(capacity));
        }
        list.say(Op::Run);
    }
}
