//! Searches of the port across unknown stretches: every filling of small captures, every short list of numbers, stretches and
//! changes at every kind of border, and the captures that the random run holds. Of these also the port's own answers side by
//! side: what is stored inside stretches never matters, nor do lines beyond those that a viewer chose; and of what was
//! salvaged, the changes of the capture that was filed are between the certain and the possible ones.

use crate::document::{fillings, fillings::Fillings, refusals::need, rules};
use crate::feed::{to_bytes, Feed};
use crate::filed::{noise, spotted, Filed};
use crate::groups::refused::rows_1_and_2;
use crate::groups::unknown::{across, ask, four};
use crate::list::{append, List};
use crate::mill::grant;
use crate::op::{Op, Sort, Store, Way, SEARCHES};
use crate::port::Port;
use crate::shapes::{each_short, mask, CHUNK};
use crate::side::{Answer, Side};
use crate::spoiled::{sample, spoiled_set};
use crate::stretches::{about, of_set, random, spoiled, WAYS};
use rng::Rng;

/// No line, lines that either unit has, and lines that unit 1 lacks.
const MASKS: [u16; 9] = [0, 1, 0x80, 0x81, 0x7E, 0x100, 0x8000, 0xFF00, 0xFFFF];

#[derive(Default)]
pub struct Unknowns {
    /// Where the captures are that look alike.
    pub other: Port,
    /// Searches of two captures alike.
    pub twice: u64,
    /// Searches held against every filling.
    pub filled: u64,
    /// Changes of captures that were filed, held against what was salvaged.
    pub changes: u64,
}

impl Unknowns {
    /// What is asked once.
    pub fn sweep(&mut self, list: &mut List, rng: &mut Rng) {
        for (unit, values, most, unknown) in
            [(1, &[0, 1, 0x81][..], 5, 1), (1, &[0, 0x81], 4, 2), (2, &[0, 0x8001], 4, 1)]
        {
            each_short(values, most, |samples| self.fillings(list, samples, unit, unknown));
            list.text();
        }
        for unit in [1, 2] {
            lists(list, unit);
            ways(list, rng, unit);
            borders(list, unit);
            self.blocks(list, rng, unit);
            list.text();
        }
    }

    /// The capture that the list holds, with any stretches; beside one that looks like it; and salvaged.
    pub fn ask(&mut self, list: &mut List, rng: &mut Rng) {
        let document = list.asker().document();
        let (store, refused) = (document.store(), document.refuses());
        if refused {
            ask(list, 1, 0, &[]);
            return;
        }
        // A plain scan of a long capture takes its time.
        let lists = if store.len > 100_000 { 2 } else { 6 };
        for _ in 0..lists {
            let mut stretches = random(rng, store.len);
            if rng.once_in(8) {
                stretches = spoiled(rng, &stretches, store.len);
            }
            for _ in 0..2 {
                let from = place(rng, store.len, &stretches);
                ask(list, mask(rng, 8 * store.unit), from, &stretches);
            }
            if rng.once_in(4) {
                self.alike(list, rng, store, &stretches);
            }
        }
        if rng.once_in(100) {
            let [good, bad] = [&[][..], &[1]].map(|stretches| four(1, 0, stretches));
            rows_1_and_2(list, store, &[good, bad].concat());
        }
        if store.len < 3_000 && rng.once_in(4) {
            let bytes = to_bytes(list.asker().document().samples(), store.unit);
            let set = rng.number();
            self.salvaged(list, rng, &Filed::new(store.unit, store.mark, bytes), set);
        }
    }

    /// Every list with at most so many unknown samples, every mask and place: the port, and the law that the document goes
    /// by, find what all fillings come to.
    fn fillings(&mut self, list: &mut List, samples: &[u16], unit: u64, most: u32) {
        let len = samples.len() as u64;
        list.holding(8 * unit, 5, samples);
        for set in (0..1u64 << len).filter(|set| set.count_ones() <= most) {
            let stretches = of_set(set);
            assert!(fillings::count(unit, &stretches).is_some(), "every filling can be tried");
            for mask in MASKS {
                let filled = Fillings::new(samples, unit, &stretches, mask);
                for from in (0..=len + 1).chain([u64::MAX]) {
                    for (sort, way) in SEARCHES {
                        list.say(across((sort, way), mask, from, &stretches));
                        let right = filled.search(sort, way, from);
                        self.filled += 1;
                        if found(list).is_some_and(|is| is != Ok(right)) {
                            let what = format!("by every filling it is {right:?}");
                            list.asker().differs(&what);
                        }
                    }
                }
            }
        }
    }

    /// A capture that differs within the stretches, and elsewhere in lines beyond those that a viewer chose, gives the same
    /// for masks within these, refusals too.
    fn alike(&mut self, list: &mut List, rng: &mut Rng, store: Store, stretches: &[u64]) {
        let Store { unit, len, .. } = store;
        let chosen = grant(rng);
        let (channels, capacity) = (8 * unit, len + 1 + rng.below(40));
        let noise = rng.number();
        let other = |v: u16, i: usize| v.wrapping_add(noise.rotate_left(i as u32 % 61) as u16);
        let mut samples = list.asker().document().samples().to_vec();
        for (i, v) in samples.iter_mut().enumerate() {
            *v = (*v & chosen | other(*v, i) & !chosen) & rules::lines(unit);
        }
        for stretch in stretches.chunks_exact(2) {
            let [first, count] = [stretch[0], stretch[1]].map(|n| n.min(len) as usize);
            for (i, v) in samples.iter_mut().enumerate().skip(first).take(count) {
                *v = other(*v, i) & rules::lines(unit);
            }
        }
        for op in [
            Op::Lend(need(unit, capacity)),
            Op::Capture { channels, capacity },
            append(channels, &samples),
        ] {
            self.other.take(&op);
        }
        for _ in 0..3 {
            let (mask, from) = (chosen & mask(rng, 8 * unit), place(rng, len, stretches));
            for op in four(mask, from, stretches) {
                list.say(op.clone());
                let answer = self.other.take(&op);
                self.twice += 1;
                let asker = list.asker();
                if asker.ported() != answer.as_ref() {
                    asker.differs(&format!("alike on {chosen:#x}: {answer:?}"));
                }
            }
        }
        for fault in self.other.faults() {
            list.asker().differs(&format!("alike: {fault}"));
        }
    }

    /// Files of up to five blocks, each set of these bad.
    fn blocks(&mut self, list: &mut List, rng: &mut Rng, unit: u64) {
        let each = 500 / unit;
        for filed in [
            spotted(unit, each - 1, None),
            spotted(unit, 3 * each + 1, Some(7)),
            noise(unit, 2 * each + 38, None),
            noise(unit, 4 * each, None),
        ] {
            for set in 0..1 << (filed.length() / 512 - 1) {
                self.salvaged(list, rng, &filed, set);
            }
        }
    }

    /// The capture is filed, these of its blocks are spoiled, and what is salvaged is searched with the port's own list:
    /// it is never refused, a certain change is one of the capture, and each change of the capture is a possible one.
    fn salvaged(&mut self, list: &mut List, rng: &mut Rng, filed: &Filed, set: u64) {
        let Store { unit, capacity, len, .. } = filed.store;
        let samples = rules::samples(&filed.feed.pieces(unit).concat(), unit);
        filed.write(list);
        list.put_file(0, &spoiled_set(&filed.file(), set, sample));
        let count = filed.length();
        list.say(Op::Salvage { capacity, count, list: 2 * count / 512 });
        let asker = list.asker();
        let (Some(port), Some(Ok(_))) = (asker.port(), asker.ported()) else {
            return;
        };
        let stretches: Vec<u64> =
            port.stretches().flat_map(|(first, count)| [first, count]).map(|n| n as u64).collect();
        let any = mask(rng, 8 * unit);
        let mask = rng.pick(&[1, rules::lines(unit), any]);
        let changes: Vec<u64> = (1..len).filter(|&i| rules::changes(&samples, i, mask)).collect();
        let some = (0..12.min(changes.len())).map(|_| rng.pick(&changes));
        for place in some.collect::<Vec<_>>() {
            for (way, from) in [(Way::Next, place - 1), (Way::Prev, place)] {
                let possible = walked(list, (Sort::Possible, way), mask, from, &stretches);
                held(list, "no possible change", possible == Some(place));
            }
            self.changes += 1;
        }
        for way in [Way::Next, Way::Prev] {
            let mut from = rng.below(len + 1);
            for _ in 0..12 {
                let certain = (Sort::Certain, way);
                let Some(place) = walked(list, certain, mask, from, &stretches) else { break };
                held(list, "no change", rules::changes(&samples, place, mask));
                self.changes += 1;
                from = if way == Way::Next { place } else { place - 1 };
            }
        }
    }
}

/// What a search of the port finds in what was salvaged. It is never refused.
fn walked(
    list: &mut List,
    search: (Sort, Way),
    mask: u16,
    from: u64,
    stretches: &[u64],
) -> Option<u64> {
    list.say(across(search, mask, from, stretches));
    let found = found(list)?;
    held(list, "refused", found.is_ok());
    found.ok().flatten()
}

fn held(list: &mut List, what: &str, right: bool) {
    if !right {
        list.asker().differs(&format!("after a salvage: {what}"));
    }
}

/// What the port's last search found, or the number of its refusal.
fn found(list: &mut List) -> Option<Result<Option<u64>, u64>> {
    let found = |answer: &Answer| answer.clone().map(|values| values.get(1).copied());
    list.asker().ported().map(found)
}

/// A place at an end of a stretch or up to two beside it, at an end of the capture, or any.
fn place(rng: &mut Rng, len: u64, stretches: &[u64]) -> u64 {
    let ends = stretches.chunks_exact(2).flat_map(|s| [s[0], s[0].saturating_add(s[1])]);
    let ends: Vec<u64> = ends.chain([0, len]).collect();
    match rng.below(8) {
        0 => rng.below(len + 2),
        1 => rng.pick(&[0, u64::MAX - 1, u64::MAX]),
        _ => rng.pick(&ends).saturating_add(rng.below(5)).saturating_sub(2),
    }
}

/// Every list of up to four small numbers, for every small len; and of numbers about len and about 2^64.
fn lists(list: &mut List, unit: u64) {
    for len in 0..5 {
        list.holding(8 * unit, 5, &[0, 1, 1, 0][..len as usize]);
        let numbers: Vec<u16> = (0..=len + 1).collect();
        each_short(&numbers, 4, |numbers| {
            let stretches: Vec<u64> = numbers.iter().map(|&number| number as u64).collect();
            ask(list, 1, stretches.len() as u64 % 3, &stretches);
        });
    }
    let big = 1 << 63;
    let numbers = [0, 1, 3, 4, 5, 6, 1 << 32, big - 1, big, u64::MAX - 5, u64::MAX - 1, u64::MAX];
    list.holding(8 * unit, 5, &[0, 1, 1, 0, 1]);
    let count = numbers.len();
    for number in 0..count.pow(4) {
        let at = |place| numbers[number / count.pow(place) % count];
        let search = SEARCHES[number % 4];
        let stretches = [at(3), at(2), at(1), at(0)];
        list.say(across(search, 1, 2, &stretches));
        if number < count.pow(2) {
            ask(list, 1, 2, &stretches[2..]);
        }
    }
}

/// Each way of being bad at each of a hundred stretches.
fn ways(list: &mut List, rng: &mut Rng, unit: u64) {
    let samples: Vec<u16> = (0..500).map(|i| i / 7 % 2).collect();
    list.holding(8 * unit, 500, &samples);
    let good: Vec<u64> = (0..100).flat_map(|k| [5 * k + 1, 1 + k % 3]).collect();
    for at in (0..good.len()).step_by(2) {
        for way in WAYS {
            let mut bad = good.clone();
            way(&mut bad, at, 500);
            list.say(across(rng.pick(&SEARCHES), 1, rng.below(500), &bad));
        }
    }
}

/// A lone change about each kind of border, with stretches about it and about the change, and captures that change at every
/// sample there; searches from all places near.
fn borders(list: &mut List, unit: u64) {
    let line = 1 << (8 * unit - 1);
    for (border, far) in [(32, 3), (64, 2), (1_024, 2), (32_768, 2), (CHUNK, 1)] {
        let len = border + 50;
        let about_border = |list: &mut List, runs: Vec<(u64, u16)>, place: u64| {
            list.capture(8 * unit, len);
            list.say(Op::Append(Feed::Runs(runs)));
            let mut lists = about(border, len);
            if place != border && border < CHUNK {
                lists.extend(about(place, len));
            }
            for stretches in lists {
                for from in (border - far - 1..=border + far).chain([0, u64::MAX]) {
                    ask(list, line, from, &stretches);
                }
            }
            list.text();
        };
        for place in border - far..=border + far {
            about_border(list, vec![(place, 0), (len - place, line)], place);
        }
        let quiet = border.saturating_sub(50);
        let dense = (quiet..len).map(|place| (1, line * (place % 2) as u16));
        about_border(list, [(quiet, 0)].into_iter().chain(dense).collect(), border);
    }
}
