//! Encoders of the port beside the document's plain scan: from every two lines and by every grant of these, in every length,
//! with changes at every border, and from captures of turning encoders in pushes of many kinds. Of the last also the port's
//! own answers side by side: a run, its reverse, and both in turn.

use crate::feed::{to_bytes, Feed};
use crate::groups::refused::rows_1_and_2;
use crate::list::List;
use crate::op::{Ask, Condition, Mill, Op, Settings, Store, Term, Wish};
use crate::shapes::{CHUNK, NO_LINES};
use rng::Rng;

#[derive(Default)]
pub struct Encoders {
    /// Runs that were also read in reverse.
    pub reversed: u64,
}

impl Encoders {
    /// What is asked once.
    pub fn sweep(&self, list: &mut List, rng: &mut Rng) {
        for channels in [8, 16] {
            pairs(list, rng, channels);
            lengths(list, rng, channels);
            borders(list, channels);
        }
    }

    /// A random run, its reverse, and both in turn several times over.
    pub fn ask(&mut self, list: &mut List, rng: &mut Rng) {
        let turning = Turning::random(rng);
        let back: Vec<u16> = turning.samples.iter().rev().copied().collect();
        let both = [&turning.samples[..], &back].concat();
        let there = turning.replayed(list, rng);
        let back = Turning { samples: back, ..turning }.replayed(list, rng);
        let (Some([position, forward, backward, skipped]), Some(back)) = (there, back) else {
            return;
        };
        held(list, "in reverse", [-position, backward, forward, skipped], back);
        self.reversed += 1;
        if both.len() > 10_000 {
            return;
        }
        let times = 1 + rng.below(4) as i64;
        let samples = both.repeat(times as usize);
        if let Some(returned) = (Turning { samples, ..turning }).replayed(list, rng) {
            let steps = times * (forward + backward);
            held(list, "there and back", [0, steps, steps, 2 * times * skipped], returned);
        }
    }
}

fn held(list: &mut List, what: &str, right: [i64; 4], is: [i64; 4]) {
    if right != is {
        list.asker().differs(&format!("{what} the encoder is {is:?} and should be {right:?}"));
    }
}

/// Every two lines, equal ones and numbers that are no line too, as the service and as mills that may see both, one or none;
/// and over bad records and short slices.
fn pairs(list: &mut List, rng: &mut Rng, channels: u64) {
    let samples: Vec<u16> = (0..200).map(|_| rng.below(1 << channels) as u16).collect();
    list.capture(channels, 200);
    list.say(Op::Append(Feed::Bytes(to_bytes(&samples, channels / 8))));
    let by_mill = |grant, a, b| Op::Mill(Mill { grant, ask: Ask::Encoder { a, b } });
    let good = Store { unit: channels / 8, capacity: 200, len: 200, mark: None };
    let calls = [by_mill(3, 0, 1), by_mill(3, 1, 1), by_mill(3, 0, 16), by_mill(3, 0, 2)];
    rows_1_and_2(list, good, &calls);
    let lines = (0..16).chain(NO_LINES);
    for (a, b) in lines.clone().flat_map(|a| lines.clone().map(move |b| (a, b))) {
        list.say(Op::Encoder { a, b });
        let bit = |line: u64| if line < 16 { 1 << line } else { 0 };
        for grant in [0, bit(a), bit(b), bit(a) | bit(b), !(bit(a) | bit(b)), 0xFFFF] {
            list.say(by_mill(grant, a, b));
        }
    }
}

/// Every short length, dense with changes, in one append; and the same run as it grows.
fn lengths(list: &mut List, rng: &mut Rng, channels: u64) {
    let (a, b) = (channels - 5, channels - 4);
    let samples: Vec<u16> = (0..200).map(|_| (rng.below(4) << a) as u16).collect();
    let bytes = to_bytes(&samples, channels / 8);
    let unit = channels as usize / 8;
    for len in 0..=samples.len() {
        list.capture(channels, 200);
        list.say(Op::Append(Feed::Bytes(bytes[..len * unit].to_vec())));
        list.say(Op::Encoder { a, b });
    }
    list.capture(channels, 200);
    for sample in bytes.chunks(unit) {
        list.say(Op::Append(Feed::Bytes(sample.to_vec())));
        list.say(Op::Encoder { a, b });
    }
}

/// A lone change of A, of B or of both at each border and beside it, in two appends cut exactly there and in one; behind it
/// parts of a node and whole ones.
fn borders(list: &mut List, channels: u64) {
    let (a, b) = (channels - 5, channels - 4);
    let order = [0, 1 << a, 1 << a | 1 << b, 1 << b];
    let mut number = 0;
    let mut ask = |place: u64, end: u64, change: u16, cut: u64| {
        number += 1;
        let before = order[number % 4];
        list.capture(channels, place + end);
        for (from, to) in [(0, cut), (cut, place + end)] {
            let quiet = place.clamp(from, to) - from;
            let runs = vec![(quiet, before), (to - from - quiet, before ^ change)];
            list.say(Op::Append(Feed::Runs(runs)));
        }
        list.say(Op::Encoder { a, b });
    };
    let ends = [1, 31, 32, 33, 64, 1_029];
    let mut ends = ends.iter().copied().cycle();
    let mut next_end = || ends.next().expect("it goes on for ever");
    for border in (32..=1_088).step_by(32) {
        for place in [border - 1, border, border + 1] {
            for change in [order[1], order[2], order[3]] {
                ask(place, next_end(), change, place);
                ask(place, next_end(), change, 0);
            }
        }
    }
    for border in (2_048..=34_816).step_by(1_024) {
        for (place, change) in [border - 1, border, border + 1].into_iter().zip(&order[1..]) {
            ask(place, next_end(), *change, place);
            ask(place, next_end(), *change, 0);
        }
    }
    // Behind these a whole node of level 3, and a whole chunk.
    for border in [32_768, CHUNK] {
        for (place, change) in [border - 1, border, border + 1].into_iter().zip(&order[1..]) {
            ask(place, border + 5, *change, place);
        }
    }
}

/// A capture with an encoder on two of its lines.
struct Turning {
    channels: u64,
    lines: [u64; 2],
    samples: Vec<u16>,
}

impl Turning {
    /// From steps at every sample to none at all, with few skips or many, and other lines that are quiet or not.
    fn random(rng: &mut Rng) -> Turning {
        let channels = rng.pick(&[8, 16]);
        let a = rng.below(channels);
        // At times a line that the unit lacks.
        let lines = rng.pick(&[channels, channels, channels, 16]);
        let b = (a + 1 + rng.below(lines - 1)) % lines;
        let len = match rng.below(300) {
            0 => 30_000 + rng.below(40_000),
            1..=30 => rng.below(3_000),
            31..=60 => rng.pick(&[32, 64, 128, 256, 512, 1_024]) + rng.below(3) - 1,
            _ => rng.below(140),
        };
        let (least, more) =
            rng.pick(&[(1, 1), (1, 3), (2, 9), (2, 9), (50, 101), (500, 1_001), (len + 1, 1)]);
        let (skips, busy) = (rng.pick(&[2, 10, 1_000]), rng.pick(&[1, 50, u64::MAX]));
        let held = if channels == 8 { 0xFF } else { 0xFFFF };
        let order = [0, 1 << a, 1 << a | 1 << b, 1 << b].map(|sample: u16| sample & held);
        let others = held & !order[1] & !order[3];
        let (mut quarter, mut turn, mut left) = (rng.below(4), 1, least);
        let mut beside = rng.number() as u16 & others;
        let samples = (0..len).map(|_| {
            if left == 0 {
                left = least + rng.below(more);
                turn = if rng.once_in(8) { 4 - turn } else { turn };
                quarter += if rng.once_in(skips) { 2 } else { turn };
            }
            left -= 1;
            if rng.once_in(busy) {
                beside ^= 1 << rng.below(channels) & others;
            }
            order[quarter as usize % 4] | beside
        });
        let samples = samples.collect();
        Turning { channels, lines: [a, b], samples }
    }

    /// Stores the samples and replays the encoder, at times while they come; with the lines exchanged too, and as mills.
    /// What the port says in the end.
    fn replayed(&self, list: &mut List, rng: &mut Rng) -> Option<[i64; 4]> {
        let [a, b] = self.lines;
        let recorder = self.begin(list, rng);
        let bytes = to_bytes(&self.samples, self.channels / 8);
        let unit = self.channels as usize / 8;
        let mut from = 0;
        for to in self.cuts(rng).into_iter().chain([self.samples.len()]) {
            let piece = Feed::Bytes(bytes[from * unit..to * unit].to_vec());
            list.say(if recorder { Op::Push(piece) } else { Op::Append(piece) });
            if rng.once_in(6) {
                list.say(Op::Encoder { a, b });
            }
            from = to;
        }
        list.say(Op::Encoder { a: b, b: a });
        for granted in [0, 1 << a, 1 << b, 1 << a | 1 << b] {
            let grant = rng.number() as u16 & !(1 << a | 1 << b) | granted;
            list.say(Op::Mill(Mill { grant, ask: Ask::Encoder { a, b } }));
        }
        list.say(Op::Encoder { a, b });
        let said = list.asker().ported()?.as_ref().ok()?;
        said.iter().map(|&n| n as i64).collect::<Vec<_>>().try_into().ok()
    }

    /// A store; or a recorder, which stores all or waits for what the first sample is. Whether it is a recorder.
    fn begin(&self, list: &mut List, rng: &mut Rng) -> bool {
        let channels = self.channels;
        let capacity = (self.samples.len() as u64 + rng.pick(&[0, 0, 1, 40])).max(1);
        if rng.once_in(2) {
            list.capture(channels, capacity);
            return false;
        }
        let line = self.lines[0] as u8;
        let level = |v: &u16| if v >> line & 1 == 1 { Condition::High } else { Condition::Low };
        let first = self.samples.first().filter(|_| rng.once_in(2));
        let terms = first.map(|v| Term { line, condition: level(v) }).into_iter().collect();
        let wish = Wish::Seconds(0.0);
        list.start(&Settings { channels, capacity, limit: 0, wish, rate: 0, terms });
        true
    }

    /// Where the pushes are cut: nowhere, at borders, every three samples, at each step or right behind it, or anywhere.
    fn cuts(&self, rng: &mut Rng) -> Vec<usize> {
        let [a, b] = self.lines;
        let len = self.samples.len();
        let steps = |i: &usize| {
            let changed = self.samples[*i] ^ self.samples[*i - 1];
            (changed >> a | changed >> b) & 1 == 1
        };
        let long = len > 3_000;
        match rng.below(6) {
            0 => Vec::new(),
            1 if !long => (3..len).step_by(3).collect(),
            2 if !long => (1..len).filter(steps).collect(),
            3 if !long => (1..len).filter(steps).map(|i| i + 1).filter(|&i| i < len).collect(),
            4 => {
                let mut cuts: Vec<usize> =
                    (0..rng.below(5)).map(|_| rng.below(len as u64 + 1) as usize).collect();
                cuts.sort();
                cuts
            }
            _ => {
                let spans =
                    if long { &[1_024, 4_096][..] } else { &[32, 64, 128, 256, 512, 1_024] };
                let span = rng.pick(spans);
                (span..len).step_by(span).collect()
            }
        }
    }
}
