//! Pushes that rows 1, 2 and 8 refuse.

use super::{left, limited, push, push_runs, recording, term, unlimited};
use crate::document::rules;
use crate::feed::Feed;
use crate::groups::refused::rows_1_and_2;
use crate::list::List;
use crate::op::Condition::{High, Rising};
use crate::op::{Lent, Op, Recorder, Store};
use crate::shapes::BORDERS;

pub fn write(list: &mut List) {
    refused_pushes(list);
    capacity(list);
}

/// Rows 1 and 2 for a push, armed and unarmed, waiting and filled.
fn refused_pushes(list: &mut List) {
    let one = Op::Push(Feed::Bytes(vec![1, 1]));
    let none = Op::Push(Feed::Bytes(vec![]));
    let calls = [one.clone(), none];
    let high = vec![term(0, High)];
    for (channels, terms, len) in [(8, high.clone(), 0), (8, vec![], 3), (16, high, 0)] {
        list.start(&limited(channels, 6, 5, 0.5, &terms));
        push(list, channels, &[0, 0, 0]);
        let good = Store { unit: rules::unit(channels), capacity: 6, len, mark: None };
        rows_1_and_2(list, good, &calls);
        // An unarmed push asks for its ring too.
        let full = list.lent();
        list.lend(Lent { ring: full.ring - 1, ..full });
        list.say(one.clone());
        list.lend(full);
        let (kept, place) = if terms.is_empty() { (0, 0) } else { (2, 1) };
        let right = Recorder { limit: 5, pre: 2, kept, place };
        for bad in [
            Recorder { limit: 7, ..right },
            Recorder { limit: u64::MAX, ..right },
            Recorder { pre: 6, ..right },
            Recorder { pre: u64::MAX, ..right },
            Recorder { kept: 3, ..right },
            Recorder { place: 2, ..right },
            Recorder { pre: 0, kept: 1, place: 0, ..right },
            Recorder { pre: 0, kept: 0, place: 1, ..right },
        ] {
            list.say(Op::Feeder(bad));
            for call in &calls {
                list.say(call.clone());
            }
        }
        if len > 0 {
            list.say(Op::Feeder(Recorder { limit: 2, ..right }));
            list.say(one.clone());
        }
        list.say(Op::Feeder(right));
        left(list);
        list.say(one.clone());
        left(list);
    }
}

/// Refused with 8: the push counts for nothing, and the recorder waits on as it was.
fn capacity(list: &mut List) {
    let rising = [term(0, Rising)];
    list.start(&unlimited(8, 3, 2, &rising));
    for samples in [&[0, 0, 0][..], &[1, 0, 0], &[], &[1], &[1], &[]] {
        push(list, 8, samples);
        left(list);
    }
    recording(list, &unlimited(8, 3, 0, &[]), &[&[1, 2], &[3, 4], &[3], &[], &[5]]);
    recording(list, &unlimited(8, 3, 1, &rising), &[&[0, 1, 1, 1], &[0, 0, 1, 1], &[1]]);
    recording(list, &unlimited(8, 3, 0, &rising), &[&[0, 1, 1, 1], &[1], &[0], &[1, 1, 1], &[1]]);
    // Under a limit nothing is ever too much.
    recording(list, &limited(8, 3, 3, 0.99, &rising), &[&[0, 0, 0, 0, 1, 1, 1, 1], &[1; 9]]);
    recording(list, &limited(8, 3, 2, 0.5, &[]), &[&[7; 30], &[8; 30]]);
    for capacity in BORDERS {
        list.start(&unlimited(16, capacity, 20, &rising));
        let first = capacity.min(32_700);
        push_runs(list, &[(100, 0)]);
        push_runs(list, &[(first, 1)]);
        push_runs(list, &[(first - 20, 1)]);
        push_runs(list, &[(capacity - first + 1, 2)]);
        push_runs(list, &[(capacity - first, 2)]);
        push_runs(list, &[(1, 3)]);
        list.say(Op::Run);
        list.say(Op::State);
        list.say(Op::Whole);
    }
}
