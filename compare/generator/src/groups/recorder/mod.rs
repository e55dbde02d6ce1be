//! Start and push: selection over lists of pushes.

mod pushes;
mod random;
mod refused_pushes;
mod starts;

pub use random::random;

use crate::document::rules;
use crate::feed::{to_bytes, Feed};
use crate::list::List;
use crate::op::Condition::{High, Rising};
use crate::op::Wish::{Fraction, Seconds};
use crate::op::{Burst, Condition, Op, Settings, Term, View};
use crate::shapes::Size;
use rng::Rng;

pub fn write(list: &mut List, rng: &mut Rng) {
    shelf(list);
    starts::write(list);
    refused_pushes::write(list);
    pushes::write(list, rng);
    for (size, count) in [(Size::Short, 8), (Size::Border, 6)] {
        for _ in 0..count {
            random(list, rng, size);
        }
    }
}

/// Shelf examples 13 to 15.
fn shelf(list: &mut List) {
    let rising = [term(0, Rising)];
    recording(list, &limited(8, 4, 4, 0.5, &rising), &[&[0, 0], &[0, 1, 1]]);
    recording(list, &limited(8, 4, 4, 0.5, &rising), &[&[1]]);
    recording(list, &limited(8, 4, 4, 0.5, &[term(0, High)]), &[&[1]]);
    list.start(&Settings { wish: Seconds(0.5), ..unlimited(8, 3, 3, &rising) });
}

fn term(line: u8, condition: Condition) -> Term {
    Term { line, condition }
}

/// With a limit; the rate is of no account.
fn limited(channels: u64, capacity: u64, limit: u64, p: f64, terms: &[Term]) -> Settings {
    let terms = terms.to_vec();
    Settings { channels, capacity, limit, wish: Fraction(p), rate: 0, terms }
}

/// Without a limit, `pre` samples kept.
fn unlimited(channels: u64, capacity: u64, pre: u64, terms: &[Term]) -> Settings {
    let terms = terms.to_vec();
    Settings { channels, capacity, limit: 0, wish: Seconds(1.0), rate: pre, terms }
}

fn push(list: &mut List, channels: u64, samples: &[u16]) {
    let bytes = to_bytes(samples, rules::unit(channels));
    list.say(Op::Push(Feed::Bytes(bytes)));
}

fn push_runs(list: &mut List, runs: &[(u64, u16)]) {
    list.say(Op::Push(Feed::Runs(runs.to_vec())));
}

/// All lines of the unit but one, for noise that must not fire.
fn all_but(line: u16, channels: u64) -> u16 {
    let all = if channels > 8 { 0xFFFF } else { 0xFF };
    all ^ (1 << line)
}

/// What the list of pushes has left, few enough samples to be listed.
fn left(list: &mut List) {
    list.say(Op::Run);
    list.say(Op::State);
    list.say(Op::Samples { start: 0, count: 40, output: 40 });
}

/// A recorder, these pushes, and what they leave.
fn recording(list: &mut List, settings: &Settings, pushes: &[&[u16]]) {
    list.start(settings);
    for samples in pushes {
        push(list, settings.channels, samples);
    }
    left(list);
}

/// Questions about what a recorder holds, near a place.
fn questions(list: &mut List, len: u64, place: u64) {
    for from in [0, place.saturating_sub(1), place, len] {
        list.say(Op::Next { mask: 0xFFFF, from });
        list.say(Op::Prev { mask: 3, from });
        list.say(Op::Summary { a: from, b: len });
        list.say(Op::Density { a: from, b: len });
    }
    let burst = Burst { mask: 7, sample: place, max_gap: 50, tolerance: 20, budget: 3 };
    list.say(Op::Burst(burst));
    let spp = len as f64 / 4.0;
    list.say(Op::Render(View { start: -0.5, spp, width: 5, output: 10 }));
    list.say(Op::Encoder { a: 0, b: 1 });
}
