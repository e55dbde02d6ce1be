//! Lists of unknown stretches: good ones, those about a place, and ways of being bad.

use crate::shapes::CHUNK;
use rng::Rng;

/// The list of the places in these ranges, each from a place up to another; those that overlap or touch become one stretch.
pub fn listed(mut ranges: Vec<[u64; 2]>) -> Vec<u64> {
    ranges.sort();
    let mut list: Vec<u64> = Vec::new();
    for [from, to] in ranges.into_iter().filter(|[from, to]| from < to) {
        match list[..] {
            [.., first, ref mut count] if from <= first + *count => {
                *count = (to - first).max(*count);
            }
            _ => list.extend([from, to - from]),
        }
    }
    list
}

/// The list of the places in a set, a bit for each.
pub fn of_set(set: u64) -> Vec<u64> {
    listed((0..64).filter(|place| set >> place & 1 == 1).map(|place| [place, place + 1]).collect())
}

/// Lists with a stretch that begins or ends at this place or beside it, short and long ones, and with several.
pub fn about(place: u64, len: u64) -> Vec<Vec<u64>> {
    let far = i64::MAX;
    let range =
        |[from, to]: [i64; 2]| [from, to].map(|by| place.saturating_add_signed(by).min(len));
    let ranges: [&[[i64; 2]]; 15] = [
        &[[-1, 0]],
        &[[0, 1]],
        &[[1, 2]],
        &[[-1, 1]],
        &[[-40, 0]],
        &[[0, 40]],
        &[[-33, 33]],
        &[[-far, -1]],
        &[[-far, 0]],
        &[[0, far]],
        &[[1, far]],
        &[[-2, -1], [0, 1]],
        &[[-1, 0], [1, 2]],
        &[[-far, -2], [2, far]],
        &[[-far, -40], [-1, 0], [1, 2], [40, 41]],
    ];
    ranges.map(|ranges| listed(ranges.iter().copied().map(range).collect())).to_vec()
}

/// A good list: none, one stretch, some, many or such that come again and again.
pub fn random(rng: &mut Rng, len: u64) -> Vec<u64> {
    let ranges = match rng.below(10) {
        0 => Vec::new(),
        1..=3 => vec![range(rng, len)],
        4..=6 => (0..2 + rng.below(5)).map(|_| range(rng, len)).collect(),
        7 => (0..40).map(|_| range(rng, len)).collect(),
        _ => {
            let step = rng.pick(&[2, 3, 32, 33, 500, 1_024]);
            let (start, count) = (near(rng, len), 1 + rng.below(step - 1));
            let firsts = (start..len).step_by(step as usize).take(100);
            firsts.map(|first| [first, (first + count).min(len)]).collect()
        }
    };
    listed(ranges)
}

fn range(rng: &mut Rng, len: u64) -> [u64; 2] {
    let from = near(rng, len);
    let to = match rng.below(4) {
        0 => from + 1,
        1 => from + 1 + rng.below(3),
        2 => from + 1 + rng.below(70),
        _ => near(rng, len),
    };
    [from.min(to), from.max(to).min(len)]
}

/// A place up to len, often at a border of a level or beside it, or at an end.
fn near(rng: &mut Rng, len: u64) -> u64 {
    let span = rng.pick(&[1, 1, 32, 32, 1_024, 32_768, CHUNK]);
    let border = rng.below(len / span + 2) * span;
    let place = rng.pick(&[border, border, border, 0, len]);
    (place + rng.below(5)).saturating_sub(2).min(len)
}

/// Each makes a list bad at one of its stretches, most often; the len that it is for is the last number.
pub const WAYS: [fn(&mut Vec<u64>, usize, u64); 12] = [
    // An odd count of numbers.
    |list, at, _| list.truncate(at + 1),
    |list, at, _| list.insert(at, 0),
    // No samples.
    |list, at, _| list[at + 1] = 0,
    // To the end and past it.
    |list, at, len| list[at + 1] = len.saturating_sub(list[at]),
    |list, at, len| list[at + 1] = (len + 1).saturating_sub(list[at]),
    |list, at, len| list[at] = len,
    // Sums of 2^64 and above, which would wrap to 0, to len, and to below the first place.
    |list, at, _| list[at + 1] = list[at].wrapping_neg(),
    |list, at, len| (list[at], list[at + 1]) = (u64::MAX - 1, len + 2),
    |list, at, _| list[at + 1] = u64::MAX,
    // Another one touches it, overlaps with it, and lies out of order.
    |list, at, _| insert(list, at + 2, [list[at] + list[at + 1], 1]),
    |list, at, _| insert(list, at + 2, [list[at] + list[at + 1] - 1, 1]),
    |list, at, _| insert(list, 0, [list[at], list[at + 1]]),
];

fn insert(list: &mut Vec<u64>, at: usize, stretch: [u64; 2]) {
    list.splice(at..at, stretch);
}

/// The list with something wrong at one of its stretches; without any, a number alone.
pub fn spoiled(rng: &mut Rng, list: &[u64], len: u64) -> Vec<u64> {
    let mut list = list.to_vec();
    match list.len() as u64 / 2 {
        0 => list.push(rng.below(len + 1)),
        stretches => {
            let at = 2 * rng.below(stretches) as usize;
            rng.pick(&WAYS)(&mut list, at, len);
        }
    }
    list
}
