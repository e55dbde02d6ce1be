//! The rules as plain scans over the samples, one after another, and repeatable random samples. Each test file uses
//! some.
#![allow(dead_code)]

pub mod file;
pub mod unknown;
pub mod walk;

use capture::{Burst, Condition, Encoder, Lines, ListedBurst, Node, Pixel, Term, View};

/// Whether a line of the mask differs at a place from the sample before.
fn changed(s: &[Lines], mask: Lines, i: usize) -> bool {
    (s[i] ^ s[i - 1]) & mask != 0
}

pub fn next_change(s: &[Lines], mask: Lines, from: usize) -> Option<usize> {
    (from.saturating_add(1)..s.len()).find(|&i| changed(s, mask, i))
}

pub fn prev_change(s: &[Lines], mask: Lines, from: usize) -> Option<usize> {
    let last = from.min(s.len().saturating_sub(1));
    (1..=last).rev().find(|&i| changed(s, mask, i))
}

pub fn summary(s: &[Lines], a: usize, b: usize) -> Option<Node> {
    let part = s.get(a..b.min(s.len()))?;
    let toggles = part.windows(2).fold(0, |toggles, pair| toggles | pair[0] ^ pair[1]);
    let count = part.windows(2).filter(|pair| pair[0] != pair[1]).count() as u32;
    Some(Node { first: *part.first()?, last: *part.last()?, toggles, count })
}

/// The changes above `a` and below `b`.
pub fn density(s: &[Lines], a: usize, b: usize) -> u32 {
    let places = a.saturating_add(1)..b.min(s.len());
    places.filter(|&i| s[i] != s[i - 1]).count() as u32
}

/// An encoder, by where each sample stands in the order (A, B) = 00, 10, 11, 01.
pub fn encoder(s: &[Lines], a: usize, b: usize) -> Encoder {
    let stands = |sample: Lines| match (sample >> a & 1, sample >> b & 1) {
        (0, 0) => 0,
        (1, 0) => 1,
        (1, 1) => 2,
        _ => 3,
    };
    let mut encoder = Encoder::default();
    for pair in s.windows(2) {
        let (before, after) = (stands(pair[0]), stands(pair[1]));
        if after == (before + 1) % 4 {
            encoder.forward += 1;
            encoder.position += 1;
        } else if before == (after + 1) % 4 {
            encoder.backward += 1;
            encoder.position -= 1;
        } else if before != after {
            encoder.skipped += 1;
        }
    }
    encoder
}

/// A burst over any two searches, of which none is made without need.
pub fn burst_by(
    len: usize,
    prev: impl Fn(usize) -> Option<usize>,
    next: impl Fn(usize) -> Option<usize>,
    sample: usize,
    [gap, tolerance, budget]: [usize; 3],
) -> Option<Burst> {
    if len == 0 || gap < 2 {
        return None;
    }
    let tolerance = tolerance.min(gap - 1);
    let (before, after) = (prev(sample), next(sample));
    let around = before.zip(after).filter(|(p, n)| n - p < gap);
    let nearer = || {
        let left = before
            .filter(|p| sample - p <= tolerance)
            .and_then(|p| Some((prev(p - 1)?, p)))
            .filter(|(q, p)| p - q < gap);
        let right = after
            .filter(|n| n - sample <= tolerance)
            .and_then(|n| Some((n, next(n)?)))
            .filter(|(n, m)| m - n < gap);
        match (left, right) {
            (Some(l), Some(r)) => Some(if sample - l.1 <= r.0 - sample { l } else { r }),
            (l, r) => l.or(r),
        }
    };
    let (mut first, mut last) = around.or_else(nearer)?;
    let (mut jumps_at_end, mut jumps_at_start) = (0, 0);
    while jumps_at_end < budget {
        match prev(last.saturating_add(gap) - 1) {
            Some(place) if place > last => last = place,
            _ => break,
        }
        jumps_at_end += 1;
    }
    while jumps_at_start < budget {
        match next(first.saturating_sub(gap)) {
            Some(place) if place < first => first = place,
            _ => break,
        }
        jumps_at_start += 1;
    }
    Some(Burst { first, last, jumps_at_end, jumps_at_start })
}

/// All changes in groups, a new one where the gap is reached. A change alone is no burst.
pub fn bursts(s: &[Lines], mask: Lines, gap: usize) -> Vec<ListedBurst> {
    let mut groups: Vec<ListedBurst> = Vec::new();
    for place in (1..s.len()).filter(|&i| changed(s, mask, i)) {
        match groups.last_mut() {
            Some(group) if place - group.last < gap => {
                group.last = place;
                group.changes += 1;
            }
            _ => groups.push(ListedBurst { first: place, last: place, changes: 1 }),
        }
    }
    groups.retain(|group| group.changes > 1);
    groups
}

pub fn render(s: &[Lines], view: View, width: usize) -> Vec<Pixel> {
    render_from(s, 0, view, width)
}

/// The same where the view counts its places from `origin`: its edges are floored as it counts, and moved after that.
pub fn render_from(s: &[Lines], origin: usize, view: View, width: usize) -> Vec<Pixel> {
    // A cast keeps to the numbers that there are.
    let floor = |px: usize| (view.start + px as f64 * view.spp).floor() as i128;
    let edge = |px: usize| floor(px).saturating_add(origin as i128);
    let pixel = |px: usize| {
        let (a, b) = (edge(px), edge(px + 1));
        if s.is_empty() || b < 0 || a >= s.len() as i128 {
            return Pixel::default();
        }
        let a = a.max(0);
        let b = b.max(a + 1).saturating_add(1).min(s.len() as i128);
        let node = summary(s, a as usize, b as usize).unwrap();
        Pixel { first: node.first, toggles: node.toggles }
    };
    (0..width).map(pixel).collect()
}

/// What a recorder with these terms takes from all samples that it is given, and the mark.
pub fn selected(
    all: &[Lines],
    terms: &[Term],
    pre: usize,
    limit: usize,
) -> (Vec<Lines>, Option<usize>) {
    let run = |from: usize| {
        let run = &all[from..];
        run[..if limit == 0 { run.len() } else { run.len().min(limit) }].to_vec()
    };
    if terms.is_empty() {
        return (run(0), None);
    }
    match (0..all.len()).find(|&i| fires(terms, i.checked_sub(1).map(|p| all[p]), all[i])) {
        Some(fired) => (run(fired - fired.min(pre)), Some(fired.min(pre))),
        None => (Vec::new(), None),
    }
}

fn fires(terms: &[Term], before: Option<Lines>, now: Lines) -> bool {
    let named = |line, condition| terms.contains(&Term { line, condition });
    terms.iter().all(|term| {
        let high = now >> term.line & 1 == 1;
        let was = before.map(|before| before >> term.line & 1 == 1);
        let either = named(term.line, Condition::Rising) && named(term.line, Condition::Falling);
        match term.condition {
            Condition::Rising => was == Some(!high) && (high || either),
            Condition::Falling => was == Some(!high) && (!high || either),
            Condition::Edge => was == Some(!high),
            Condition::High => high,
            Condition::Low => !high,
        }
    })
}

/// The samples as bytes of a unit, low byte first.
pub fn bytes(s: &[Lines], unit: usize) -> Vec<u8> {
    s.iter().flat_map(|sample| sample.to_le_bytes().into_iter().take(unit)).collect()
}

/// Repeatable random numbers (splitmix64).
pub struct Rng(pub u64);

impl Rng {
    pub fn number(&mut self) -> u64 {
        self.0 = self.0.wrapping_add(0x9E37_79B9_7F4A_7C15);
        let z = (self.0 ^ self.0 >> 30).wrapping_mul(0xBF58_476D_1CE4_E5B9);
        let z = (z ^ z >> 27).wrapping_mul(0x94D0_49BB_1331_11EB);
        z ^ z >> 31
    }

    /// A number below `end`, which is above 0.
    pub fn below(&mut self, end: usize) -> usize {
        (self.number() % end as u64) as usize
    }

    pub fn pick<T: Copy>(&mut self, from: &[T]) -> T {
        from[self.below(from.len())]
    }

    /// Samples of a unit that stay as they are for a while, up to `calm` samples, and then change in some lines.
    pub fn samples(&mut self, len: usize, unit: usize, calm: usize) -> Vec<Lines> {
        let lines = if unit == 1 { 0xff } else { 0xffff };
        let mut samples = Vec::with_capacity(len);
        let mut now = self.number() as Lines & lines;
        while samples.len() < len {
            let end = len.min(samples.len() + 1 + self.below(calm));
            samples.resize(end, now);
            // mostly one line, as from a machine
            now ^= match self.below(4) {
                0 => self.number() as Lines & lines,
                _ => 1 << self.below(8 * unit),
            };
        }
        samples
    }
}
