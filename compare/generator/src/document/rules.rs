//! Document 01's rules, and CR 4 to CR 6 of document 02, as plain scans over all samples: no levels, no ring, no cut into
//! pushes. Written from the documents and not from the Rust, which is compared with them.

use crate::op::{Burst, Condition, Settings, Term, View, Way, Wish};

pub fn unit(channels: u64) -> u64 {
    if channels > 8 {
        2
    } else {
        1
    }
}

/// The whole samples in these bytes; a leftover byte is dropped.
pub fn samples(bytes: &[u8], unit: u64) -> Vec<u16> {
    let sample = |b: &[u8]| b.iter().rev().fold(0, |sum, &byte| sum * 256 + byte as u16);
    bytes.chunks_exact(unit as usize).map(sample).collect()
}

/// The lines that samples of a unit have.
pub fn lines(unit: u64) -> u16 {
    if unit == 1 {
        0xFF
    } else {
        0xFFFF
    }
}

pub fn changes(s: &[u16], i: u64, mask: u16) -> bool {
    (s[i as usize] ^ s[i as usize - 1]) & mask != 0
}

pub fn next(s: &[u16], mask: u16, from: u64) -> Option<u64> {
    search(Way::Next, from, s.len() as u64, |i| changes(s, i, mask))
}

pub fn prev(s: &[u16], mask: u16, from: u64) -> Option<u64> {
    search(Way::Prev, from, s.len() as u64, |i| changes(s, i, mask))
}

/// The next place after `from` that holds, or the last one up to it; place 0 never does.
pub fn search(way: Way, from: u64, len: u64, holds: impl Fn(u64) -> bool) -> Option<u64> {
    match way {
        Way::Next => (from.checked_add(1)?..len).find(|&i| holds(i)),
        Way::Prev => (1..from.saturating_add(1).min(len)).rev().find(|&i| holds(i)),
    }
}

/// First, last and toggles of [a, b), cut at the end.
pub fn summary(s: &[u16], a: u64, b: u64) -> Option<[u16; 3]> {
    let b = b.min(s.len() as u64);
    if a >= b {
        return None;
    }
    let part = &s[a as usize..b as usize];
    let toggles = part.windows(2).fold(0, |sum, pair| sum | (pair[0] ^ pair[1]));
    Some([part[0], part[part.len() - 1], toggles])
}

/// The changes in [a, b), cut at the end: places above a at which any line differs from the sample before.
pub fn density(s: &[u16], a: u64, b: u64) -> u64 {
    let places = a.saturating_add(1)..b.min(s.len() as u64);
    places.filter(|&i| changes(s, i, 0xFFFF)).count() as u64
}

/// What an encoder's two lines come to.
#[derive(Clone, Copy, Debug, Default, PartialEq)]
pub struct Turns {
    pub position: i64,
    pub forward: u64,
    pub backward: u64,
    pub skipped: u64,
}

/// Where lines A and B of a sample stand in the order 00, 10, 11, 01.
fn quarter(sample: u16, a: u64, b: u64) -> u64 {
    match (sample >> a & 1, sample >> b & 1) {
        (0, 0) => 0,
        (1, 0) => 1,
        (1, 1) => 2,
        _ => 3,
    }
}

/// From sample to sample, one on in the order is forward and one back backward; two is both lines changing, a skip.
pub fn encoder(s: &[u16], a: u64, b: u64) -> Turns {
    let mut turns = Turns::default();
    for pair in s.windows(2) {
        match (quarter(pair[1], a, b) + 4 - quarter(pair[0], a, b)) % 4 {
            0 => {}
            1 => {
                turns.forward += 1;
                turns.position += 1;
            }
            2 => turns.skipped += 1,
            _ => {
                turns.backward += 1;
                turns.position -= 1;
            }
        }
    }
    turns
}

/// First and last change, then the jumps made at the end and at the start.
pub fn burst(s: &[u16], b: &Burst) -> Option<[u64; 4]> {
    let (prev, next) = (|from| prev(s, b.mask, from), |from| next(s, b.mask, from));
    burst_by(s.len() as u64, prev, next, b)
}

/// The same over any two searches, made as `burst_at` makes them: none without need.
pub fn burst_by(
    len: u64,
    prev: impl Fn(u64) -> Option<u64>,
    next: impl Fn(u64) -> Option<u64>,
    b: &Burst,
) -> Option<[u64; 4]> {
    if len == 0 || b.max_gap < 2 {
        return None;
    }
    let (mut first, mut last) = pair(&prev, &next, b)?;
    let (mut at_end, mut at_start) = (0, 0);
    while at_end < b.budget {
        // last + max_gap is at least 2, and beyond 2^64 − 1 it counts as that.
        let furthest = (last as u128 + b.max_gap as u128 - 1).min(u64::MAX as u128) as u64;
        match prev(furthest) {
            Some(place) if place > last => last = place,
            _ => break,
        }
        at_end += 1;
    }
    while at_start < b.budget {
        match next(first.saturating_sub(b.max_gap)) {
            Some(place) if place < first => first = place,
            _ => break,
        }
        at_start += 1;
    }
    Some([first, last, at_end, at_start])
}

/// The two neighbouring changes that a burst grows from.
fn pair(
    prev: impl Fn(u64) -> Option<u64>,
    next: impl Fn(u64) -> Option<u64>,
    b: &Burst,
) -> Option<(u64, u64)> {
    let tolerance = b.tolerance.min(b.max_gap - 1);
    let (p, n) = (prev(b.sample), next(b.sample));
    if let (Some(p), Some(n)) = (p, n) {
        if n - p < b.max_gap {
            return Some((p, n));
        }
    }
    let near = |pair: &(u64, u64)| pair.1 - pair.0 < b.max_gap;
    let left = p.filter(|p| b.sample - p <= tolerance);
    let left = left.and_then(|p| Some((prev(p - 1)?, p))).filter(near);
    let right = n.filter(|n| n - b.sample <= tolerance);
    let right = right.and_then(|n| Some((n, next(n)?))).filter(near);
    match (left, right) {
        (Some(l), Some(r)) if r.0 - b.sample < b.sample - l.1 => Some(r),
        (Some(l), _) => Some(l),
        (None, right) => right,
    }
}

/// The floor as an integer. Beyond 128 bits it is as good as infinite.
fn floor(x: f64) -> i128 {
    let toward_zero = x as i128;
    if toward_zero as f64 > x {
        toward_zero.saturating_sub(1)
    } else {
        toward_zero
    }
}

/// First and toggles of each pixel.
pub fn render(s: &[u16], view: &View) -> Vec<u16> {
    render_from(s, 0, view)
}

/// The same for a view that counts places from `origin`: the edges are floored as it counts, and then moved.
pub fn render_from(s: &[u16], origin: u64, view: &View) -> Vec<u16> {
    let len = s.len() as i128;
    let edge = |px: u64| {
        let product = px as f64 * view.spp;
        floor(view.start + product).saturating_add(origin as i128)
    };
    let pixel = |px: u64| {
        let (a, b) = (edge(px), edge(px + 1));
        if b < 0 || a >= len || len == 0 {
            return [0, 0];
        }
        let a = a.max(0);
        let b = b.max(a + 1).saturating_add(1).min(len);
        let [first, _, toggles] = summary(s, a as u64, b as u64).expect("a < b");
        [first, toggles]
    };
    (0..view.width).flat_map(pixel).collect()
}

/// Samples kept before the trigger, and whether the cap cut them.
pub fn pre(wish: Wish, limit: u64, rate: u64, unit: u64) -> (u64, bool) {
    match wish {
        Wish::Fraction(p) => ((limit as f64 * clamp(p, 0.99)) as u64, false),
        Wish::Seconds(t) => {
            let product = clamp(t, 1.0) * rate as f64;
            let whole = product as u64;
            let wanted = whole + (product - whole as f64 >= 0.5) as u64;
            let cap = 67_108_864 / unit;
            (wanted.min(cap), wanted > cap)
        }
    }
}

fn clamp(x: f64, most: f64) -> f64 {
    if x < 0.0 {
        0.0
    } else if x > most {
        most
    } else {
        x
    }
}

/// Document 02, CR 4: a line with both Rising and Falling counts as one with Edge.
fn fires(terms: &[Term], before: Option<u16>, v: u16) -> bool {
    let bit = |sample: u16, term: &Term| sample >> term.line & 1;
    let named = |line, condition| terms.contains(&Term { line, condition });
    let both = |line| named(line, Condition::Rising) && named(line, Condition::Falling);
    terms.iter().all(|term| {
        let now = bit(v, term);
        let then = before.map(|p| bit(p, term));
        let differs = then.is_some_and(|then| then != now);
        match term.condition {
            Condition::High => now == 1,
            Condition::Low => now == 0,
            Condition::Rising => differs && (now == 1 || both(term.line)),
            Condition::Falling => differs && (now == 0 || both(term.line)),
            Condition::Edge => differs,
        }
    })
}

/// What selection takes: samples [start, end), the mark, and the first firing place.
pub struct Run {
    pub start: usize,
    pub end: usize,
    pub mark: Option<u64>,
    pub fired: Option<usize>,
}

/// Selection, from all samples of the accepted pushes.
pub fn select(settings: &Settings, pre: u64, all: &[u16]) -> Run {
    let before = |i: usize| i.checked_sub(1).map(|i| all[i]);
    let fired = (0..all.len()).find(|&i| fires(&settings.terms, before(i), all[i]));
    let (start, mark, fired) = match fired {
        _ if settings.terms.is_empty() => (0, None, None),
        Some(t) => {
            let mark = (t as u64).min(pre);
            (t - mark as usize, Some(mark), Some(t))
        }
        None => (all.len(), None, None),
    };
    let longest = if settings.limit == 0 { u64::MAX } else { settings.limit };
    let len = ((all.len() - start) as u64).min(longest);
    Run { start, end: start + len as usize, mark, fired }
}

#[cfg(test)]
mod tests {
    use super::*;
    use crate::shapes::each_short;

    fn turns(s: &[u16]) -> [i64; 4] {
        let Turns { position, forward, backward, skipped } = encoder(s, 0, 1);
        [position, forward as i64, backward as i64, skipped as i64]
    }

    #[test]
    fn an_encoder_turns_in_the_order_of_its_lines() {
        assert_eq!(turns(&[0, 1, 3, 2, 0]), [4, 4, 0, 0]);
        assert_eq!(turns(&[0, 2, 3, 1, 0]), [-4, 0, 4, 0]);
        assert_eq!(turns(&[0, 3, 1]), [-1, 0, 1, 1]);
        assert_eq!(turns(&[0, 3, 2, 1, 5]), [1, 1, 0, 2]);
        assert_eq!(turns(&[2]), [0; 4]);
        assert_eq!(turns(&[]), [0; 4]);
    }

    /// What CR 6 says of every run.
    #[test]
    fn an_encoder_keeps_to_its_laws() {
        each_short(&[0, 1, 2, 3, 7], 5, |s| {
            let [position, forward, backward, skipped] = turns(s);
            assert_eq!(position, forward - backward);
            let changes = (1..s.len() as u64).filter(|&i| changes(s, i, 3)).count() as i64;
            assert_eq!(forward + backward + skipped, changes);
            let reverse: Vec<u16> = s.iter().rev().copied().collect();
            assert_eq!(turns(&reverse), [-position, backward, forward, skipped]);
            let there_and_back = [s, &reverse].concat().repeat(3);
            assert_eq!(turns(&there_and_back)[0], 0);
        });
    }
}
