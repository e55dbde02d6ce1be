//! Changes across unknown stretches.

use super::changed;
use capture::{Lines, Stretch};

/// Whether a sample is unknown.
pub fn is_unknown(stretches: &[Stretch], place: usize) -> bool {
    stretches.iter().any(|&Stretch { first, count }| (first..first + count).contains(&place))
}

/// The stretches of unknown samples, none touching the next.
pub fn stretches(unknown: impl IntoIterator<Item = bool>) -> Vec<Stretch> {
    let mut stretches: Vec<Stretch> = Vec::new();
    for (first, _) in unknown.into_iter().enumerate().filter(|(_, unknown)| *unknown) {
        match stretches.last_mut() {
            Some(last) if last.first + last.count == first => last.count += 1,
            _ => stretches.push(Stretch { first, count: 1 }),
        }
    }
    stretches
}

/// The places at which a change is certain, and those at which it is possible, in order.
#[derive(Debug, PartialEq, Eq)]
pub struct Across {
    pub certain: Vec<usize>,
    pub possible: Vec<usize>,
}

impl Across {
    /// What the words mean: every value that the unit holds is tried in every unknown sample.
    pub fn by_fillings(s: &[Lines], unit: usize, stretches: &[Stretch], mask: Lines) -> Across {
        let unknown: Vec<_> = (0..s.len()).filter(|&i| is_unknown(stretches, i)).collect();
        let values = 1u64 << (8 * unit);
        let (mut always, mut once) = (vec![true; s.len()], vec![false; s.len()]);
        let mut filled = s.to_vec();
        for mut filling in 0..values.pow(unknown.len() as u32) {
            for &i in &unknown {
                filled[i] = (filling % values) as Lines;
                filling /= values;
            }
            for i in 1..s.len() {
                let changed = changed(&filled, mask, i);
                always[i] &= changed;
                once[i] |= changed;
            }
        }
        let places = |is: Vec<bool>| (1..s.len()).filter(|&i| is[i]).collect();
        Across { certain: places(always), possible: places(once) }
    }

    /// The same for captures of any length, by the two samples at each place.
    pub fn by_pairs(s: &[Lines], unit: usize, stretches: &[Stretch], mask: Lines) -> Across {
        let mut known = vec![true; s.len()];
        stretches.iter().for_each(|stretch| known[stretch.first..][..stretch.count].fill(false));
        let may = mask & if unit == 1 { 0xff } else { 0xffff } != 0;
        let places = |unknown: bool| {
            let change = |&i: &usize| match known[i - 1] && known[i] {
                true => changed(s, mask, i),
                false => unknown,
            };
            (1..s.len()).filter(change).collect()
        };
        Across { certain: places(false), possible: places(may) }
    }
}

/// The first of such places after `from`.
pub fn next(places: &[usize], from: usize) -> Option<usize> {
    places.get(places.partition_point(|&place| place <= from)).copied()
}

/// The last of them, at `from` or before.
pub fn prev(places: &[usize], from: usize) -> Option<usize> {
    places[..places.partition_point(|&place| place <= from)].last().copied()
}
