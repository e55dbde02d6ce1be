//! Document 01's table: where each number is checked, its rows in order.

use super::rules;
use crate::node::{span, NUMBERS};
use crate::op::{Lent, Recorder, Settings, Store, View, Wish};

pub const MOST: u64 = 67_108_864;

/// The memory that a store needs. The ring is a recorder's.
pub fn need(unit: u64, capacity: u64) -> Lent {
    let numbers = |level: u32| NUMBERS as u64 * capacity.div_ceil(span(level));
    Lent { samples: capacity * unit, levels: [1, 2, 3, 4].map(numbers), ring: 0 }
}

fn row_1(s: &Store) -> bool {
    let mark = s.mark.is_some_and(|mark| mark > s.len);
    !(1..=2).contains(&s.unit) || !(1..=MOST).contains(&s.capacity) || s.len > s.capacity || mark
}

fn row_1_of_recorder(s: &Store, r: &Recorder) -> bool {
    let place = r.place >= r.pre && (r.place, r.pre) != (0, 0);
    let beyond = r.limit != 0 && s.len > r.limit;
    r.limit > s.capacity || r.pre >= s.capacity || r.kept > r.pre || place || beyond
}

fn row_2(s: &Store, lent: &Lent, ring: u64) -> bool {
    let need = need(s.unit, s.capacity);
    let levels = (0..4).any(|l| lent.levels[l] < need.levels[l]);
    lent.samples < need.samples || levels || lent.ring < ring
}

/// Gives the number of the first of these that holds.
fn first(rows: &[(u64, &dyn Fn() -> bool)]) -> Result<(), u64> {
    match rows.iter().find(|(_, holds)| holds()) {
        Some(&(number, _)) => Err(number),
        None => Ok(()),
    }
}

/// A call on the record alone.
pub fn record(s: &Store) -> Result<(), u64> {
    first(&[(1, &|| row_1(s))])
}

/// Every call on a store.
pub fn store(s: &Store, lent: &Lent) -> Result<(), u64> {
    first(&[(1, &|| row_1(s)), (2, &|| row_2(s, lent, 0))])
}

pub fn start(settings: &Settings, s: &Store, lent: &Lent) -> Result<(), u64> {
    let (wish, limit, rate) = (settings.wish, settings.limit, settings.rate);
    let unlike = match wish {
        Wish::Fraction(_) => limit == 0,
        Wish::Seconds(_) => limit > 0,
    };
    let unfit = match wish {
        Wish::Fraction(p) => p.is_nan(),
        Wish::Seconds(t) => t.is_nan() || rate > 1_000_000_000,
    };
    let pre = || rules::pre(wish, limit, rate, s.unit).0;
    store(s, lent)?;
    first(&[
        (3, &|| settings.terms.iter().any(|term| term.line > 15)),
        (4, &|| limit > s.capacity),
        (5, &|| unlike),
        (6, &|| unfit),
        (7, &|| pre() >= s.capacity || lent.ring < pre() * s.unit),
    ])
}

/// A push; 8 comes after these.
pub fn push(s: &Store, r: &Recorder, lent: &Lent) -> Result<(), u64> {
    first(&[(1, &|| row_1(s) || row_1_of_recorder(s, r)), (2, &|| row_2(s, lent, r.pre * s.unit))])
}

/// An encoder's lines, after the rows of every call.
pub fn encoder(a: u64, b: u64) -> Result<(), u64> {
    first(&[(14, &|| a == b || a > 15 || b > 15)])
}

/// The same to a mill; a line beyond its grant is then 12.
pub fn mill_encoder(grant: u16, a: u64, b: u64) -> Result<(), u64> {
    encoder(a, b)?;
    first(&[(12, &|| grant >> a & 1 == 0 || grant >> b & 1 == 0)])
}

/// Writing a file of this length, after the rows of every call.
pub fn write(length: u64, output: u64) -> Result<(), u64> {
    first(&[(15, &|| output < length)])
}

/// Reading: the capacity of the new store, whatever the file is; 16 comes after it.
pub fn capacity(capacity: u64) -> Result<(), u64> {
    first(&[(1, &|| !(1..=MOST).contains(&capacity))])
}

/// And then the store that a capture's file calls for.
pub fn read(s: &Store, lent: &Lent) -> Result<(), u64> {
    first(&[(15, &|| s.len > s.capacity || row_2(s, lent, 0))])
}

/// Salvaging, after the same: the list that the stretches are reported in.
pub fn salvage(stretches: u64, list: u64) -> Result<(), u64> {
    first(&[(15, &|| list < 2 * stretches)])
}

/// A list of unknown stretches, after the rows of every call: an odd count of numbers, a stretch of no samples or one that
/// reaches past len, or one that begins before the end of the one before it or there. Sums are exact.
pub fn stretches(list: &[u64], len: u64) -> Result<(), u64> {
    let pairs = || list.chunks_exact(2);
    let end = |stretch: &[u64]| stretch[0] as u128 + stretch[1] as u128;
    let beyond = |stretch: &[u64]| stretch[1] == 0 || end(stretch) > len as u128;
    let close = |(one, next): (&[u64], &[u64])| next[0] as u128 <= end(one);
    let odd = !list.len().is_multiple_of(2);
    first(&[(18, &|| odd || pairs().any(beyond) || pairs().zip(pairs().skip(1)).any(close))])
}

/// A render, after the rows of every call.
pub fn render(view: &View) -> Result<(), u64> {
    first(&[
        (10, &|| !view.start.is_finite() || !view.spp.is_finite()),
        (11, &|| view.width > 65_536 || view.output < 2 * view.width),
    ])
}
