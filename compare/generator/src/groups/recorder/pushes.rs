//! Lists of pushes: terms, rings, leftover bytes, completion.

use super::{all_but, left, limited, push, push_runs, questions, recording, term, unlimited};
use crate::document::refusals::need;
use crate::feed::{to_bytes, Feed};
use crate::list::List;
use crate::op::Condition::{Edge, Falling, High, Low, Rising};
use crate::op::{Lent, Op, Term, CONDITIONS};
use crate::shapes::{each_short, BORDERS, CHUNK};
use rng::Rng;

pub fn write(list: &mut List, rng: &mut Rng) {
    complete(list);
    terms(list);
    leftover_bytes(list);
    rings(list);
    short(list, rng);
    chunks(list);
}

/// Complete, said again by every later push; the limit also cuts what came before the trigger.
fn complete(list: &mut List) {
    let high = [term(0, High)];
    recording(
        list,
        &limited(8, 9, 3, 0.7, &high),
        &[&[0, 0, 0, 0], &[0, 0, 1, 1], &[0, 0], &[], &[1]],
    );
    recording(list, &limited(8, 9, 3, 0.7, &high), &[&[0, 0], &[1], &[]]);
    recording(list, &limited(8, 9, 4, 0.0, &high), &[&[0, 1], &[1], &[0, 1, 1, 1, 1], &[1]]);
    recording(list, &limited(8, 9, 1, 0.99, &high), &[&[0, 0, 1]]);
    recording(list, &limited(8, 9, 5, 0.5, &[]), &[&[], &[4, 5], &[], &[6, 7, 8, 9], &[], &[1]]);
    recording(
        list,
        &limited(8, 9, 5, 0.5, &high),
        &[&[], &[0], &[], &[0, 0, 0, 0, 0, 1], &[], &[1, 1]],
    );
    recording(list, &limited(8, 9, 9, 0.99, &high), &[&[0; 40], &[1]]);
    recording(list, &limited(8, 9, 9, 0.99, &high), &[&[0; 40], &[1; 2], &[1]]);
}

/// Every condition, several on one line, and lines that unit 1 lacks.
fn terms(list: &mut List) {
    let samples = [0, 1, 0, 3, 1, 2, 2, 0, 1];
    let sets: [&[Term]; 17] = [
        &[term(0, Rising)],
        &[term(0, Falling)],
        &[term(0, Edge)],
        &[term(0, High)],
        &[term(0, Low)],
        &[term(0, Rising), term(1, Rising)],
        &[term(0, Rising), term(0, Falling)],
        &[term(0, High), term(0, Low)],
        &[term(0, Rising), term(0, High)],
        &[term(0, Edge), term(0, Low)],
        &[term(1, Falling), term(0, Low), term(0, Low)],
        &[term(0, Falling), term(1, High)],
        &[term(0, Edge), term(1, Edge)],
        &[term(1, Low), term(0, High)],
        &[term(0, Rising), term(0, High), term(0, Falling)],
        &[term(1, Edge), term(0, Falling), term(0, Rising)],
        &[term(0, Rising), term(1, Rising), term(0, Falling), term(1, Falling)],
    ];
    for set in sets {
        recording(list, &unlimited(8, 20, 3, set), &[&samples[..4], &samples[4..]]);
        // Each sample once the first of all.
        for first in [0, 1] {
            list.start(&unlimited(8, 20, 3, set));
            push(list, 8, &[first]);
            list.say(Op::Run);
            push(list, 8, &[first, 3 - first]);
            list.say(Op::Run);
        }
    }
    // Document 02, CR 4, at its smallest: with the two terms themselves the Rust would wait for ever.
    recording(list, &unlimited(8, 20, 3, &[term(0, Rising), term(0, Falling)]), &[&[1, 0]]);
    for line in [8, 15] {
        for condition in CONDITIONS {
            let set = [term(line, condition)];
            recording(list, &unlimited(8, 20, 3, &set), &[&[255, 0], &[1, 255]]);
            let other = 1 << line;
            let pushes: [&[u16]; 2] = [&[other, 255], &[other, other, 0]];
            recording(list, &unlimited(16, 20, 3, &set), &pushes);
        }
    }
}

/// A leftover byte is dropped, armed and unarmed, and never joins the next push.
fn leftover_bytes(list: &mut List) {
    let rising = [term(0, Rising)];
    for settings in
        [unlimited(16, 9, 2, &rising), limited(16, 9, 4, 0.5, &rising), unlimited(16, 9, 2, &[])]
    {
        list.start(&settings);
        for bytes in
            [&[0][..], &[1, 0, 1], &[0, 0, 1], &[1], &[0, 1, 9, 0, 7], &[1, 2, 1], &[3, 4], &[5]]
        {
            list.say(Op::Push(Feed::Bytes(bytes.to_vec())));
            list.say(Op::State);
        }
        left(list);
    }
}

/// Rings that wrap, and heads from the ring's end, its start and the firing push.
fn rings(list: &mut List) {
    for pre in [0, 1, 2, 4] {
        for waiting in [0, 1, 3, 9] {
            for before in [0, 1, 3] {
                list.start(&unlimited(8, 30, pre, &[term(7, High)]));
                // One push each while waiting, so that every slot is written alone.
                for k in 0..waiting {
                    push(list, 8, &[k + 1]);
                }
                let mut firing: Vec<u16> = (0..before).map(|k| 50 + k).collect();
                firing.extend([128, 60]);
                list.say(Op::State);
                push(list, 8, &firing);
                list.say(Op::Samples { start: 0, count: 40, output: 40 });
            }
        }
    }
    // Firing with the first and the last sample of a push, around each border.
    for (number, pre) in BORDERS.into_iter().enumerate() {
        for channels in [8, 16] {
            // In turns.
            let last = (number % 2 == 0) == (channels == 8);
            let mask = all_but(3, channels);
            list.start(&unlimited(channels, pre + 50, pre, &[term(3, Rising)]));
            for (count, seed) in [(pre - 1, 1), (1, 2), (pre / 2, 3)] {
                list.say(Op::Push(Feed::Noise { count, seed, mask }));
                list.say(Op::State);
            }
            let runs = if last { [(9, 1), (1, 8)] } else { [(1, 8), (9, 1)] };
            push_runs(list, &runs);
            push_runs(list, &[(20, 5)]);
            list.say(Op::Run);
            list.say(Op::State);
            list.say(Op::Whole);
            list.say(Op::Next { mask: 8, from: 0 });
            list.say(Op::Prev { mask: 8, from: u64::MAX });
            list.say(Op::Summary { a: 1, b: pre });
            list.say(Op::Density { a: 0, b: u64::MAX });
            list.say(Op::Encoder { a: 0, b: 3 });
        }
    }
}

/// All lists of up to three pushes of up to two samples, under many settings.
fn short(list: &mut List, rng: &mut Rng) {
    let mut pushes: Vec<Vec<u16>> = Vec::new();
    each_short(&[0, 1], 2, |samples| pushes.push(samples.to_vec()));
    let sets: [&[Term]; 5] = [
        &[],
        &[term(0, Rising)],
        &[term(0, Edge)],
        &[term(0, Low)],
        &[term(0, Falling), term(1, Low)],
    ];
    let mut settings = Vec::new();
    for set in sets {
        settings.extend([0, 1, 2].map(|pre| unlimited(8, 3, pre, set)));
        settings
            .extend([(1, 0.9), (2, 0.5), (3, 0.7)].map(|(limit, p)| limited(8, 3, limit, p, set)));
    }
    list.lend(Lent { ring: 2, ..need(1, 3) });
    for settings in &settings {
        let count = pushes.len();
        for number in 0..count.pow(3) {
            let kept = rng.once_in(300);
            let mut say = |op: Op| {
                let line = list.ask(op);
                if kept {
                    list.write(&line);
                }
            };
            say(Op::Start(settings.clone()));
            for place in 0..3 {
                let bytes = to_bytes(&pushes[number / count.pow(place) % count], 1);
                say(Op::Push(Feed::Bytes(bytes)));
            }
            say(Op::Run);
            say(Op::State);
        }
    }
}

/// A run over the border of a chunk, until the buffer is exactly full.
fn chunks(list: &mut List) {
    for channels in [8, 16] {
        let capacity = CHUNK + 40_000;
        let mask = all_but(2, channels);
        list.start(&unlimited(channels, capacity, 1_000, &[term(2, Rising)]));
        list.say(Op::Push(Feed::Noise { count: 100_000, seed: 11, mask }));
        list.say(Op::State);
        push_runs(list, &[(700, 1), (5, 4), (CHUNK - 2_000, 0)]);
        push_runs(list, &[(32_000, 1)]);
        let room = capacity - (1_000 + 5 + CHUNK - 2_000 + 32_000);
        push_runs(list, &[(room + 1, 2)]);
        push_runs(list, &[(room, 2)]);
        push_runs(list, &[(1, 3)]);
        push_runs(list, &[(0, 0)]);
        for op in [Op::Run, Op::State, Op::Whole, Op::Raw(0), Op::Raw(1)] {
            list.say(op);
        }
        questions(list, capacity, CHUNK);
        // The same with a limit at the border: what comes later isn't stored.
        list.start(&limited(channels, capacity, CHUNK + 1, 0.25, &[term(2, Rising)]));
        list.say(Op::Push(Feed::Noise { count: 300_000, seed: 12, mask }));
        push_runs(list, &[(4, 4), (32_000, 1)]);
        push_runs(list, &[(CHUNK, 9)]);
        push_runs(list, &[(5, 9)]);
        list.say(Op::Run);
        questions(list, CHUNK + 1, CHUNK);
    }
}
