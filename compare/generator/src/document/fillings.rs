//! Every filling of the unknown stretches of a small capture, tried one by one: CR 9's own words, "samples in an unknown
//! stretch may have had any value that the unit holds", and nothing of the law that unknown.rs goes by.

use super::rules::{self, changes};
use crate::op::{Sort, Way};

/// How many values a sample of a unit may have.
fn values(unit: u64) -> u64 {
    256u64.pow(unit as u32)
}

/// How many fillings there are, if no more than 65,536.
pub fn count(unit: u64, stretches: &[u64]) -> Option<u64> {
    let samples: u64 = stretches.chunks(2).map(|stretch| stretch[1]).sum();
    (samples <= 2 / unit).then(|| values(unit).pow(samples as u32))
}

/// By place, whether every filling changes there under a mask, and whether some filling does.
pub struct Fillings {
    certain: Vec<bool>,
    possible: Vec<bool>,
}

impl Fillings {
    pub fn new(s: &[u16], unit: u64, stretches: &[u64], mask: u16) -> Fillings {
        let unknown = |i: u64| {
            stretches.chunks(2).any(|stretch| stretch[0] <= i && i - stretch[0] < stretch[1])
        };
        let len = s.len() as u64;
        let places: Vec<u64> = (0..len).filter(|&i| unknown(i)).collect();
        let (mut certain, mut possible) = (vec![true; s.len()], vec![false; s.len()]);
        let mut filling = s.to_vec();
        for number in 0..values(unit).pow(places.len() as u32) {
            let mut rest = number;
            for &place in &places {
                filling[place as usize] = (rest % values(unit)) as u16;
                rest /= values(unit);
            }
            for i in 1..len {
                let changes = changes(&filling, i, mask);
                certain[i as usize] &= changes;
                possible[i as usize] |= changes;
            }
        }
        Fillings { certain, possible }
    }

    pub fn search(&self, sort: Sort, way: Way, from: u64) -> Option<u64> {
        let places = match sort {
            Sort::Certain => &self.certain,
            Sort::Possible => &self.possible,
        };
        rules::search(way, from, places.len() as u64, |i| places[i as usize])
    }
}

#[cfg(test)]
mod tests {
    use super::*;
    use crate::document::refusals;
    use crate::document::unknown;
    use crate::op::{Across, SEARCHES};

    /// The answers of the four searches, worked by hand.
    fn finds(s: &[u16], unit: u64, stretches: &[u64], mask: u16, from: u64) -> [Option<u64>; 4] {
        let filled = Fillings::new(s, unit, stretches, mask);
        SEARCHES.map(|(sort, way)| {
            let across = Across { sort, way, mask, from, stretches: stretches.to_vec() };
            let found = filled.search(sort, way, from);
            assert_eq!(found, unknown::search(s, unit, &across));
            found
        })
    }

    #[test]
    fn the_places_beside_a_stretch_are_possible_and_not_certain() {
        let s = [0, 0, 1, 1, 0, 2, 2, 3];
        // Line 0 changes at 2, 4 and 7; of these 2 and 4 are beside what is unknown.
        let stretch = [2, 2];
        assert_eq!(finds(&s, 1, &stretch, 1, 0), [Some(7), None, Some(2), None]);
        assert_eq!(finds(&s, 1, &stretch, 1, 3), [Some(7), None, Some(4), Some(3)]);
        assert_eq!(finds(&s, 1, &stretch, 1, 4), [Some(7), None, Some(7), Some(4)]);
        assert_eq!(finds(&s, 1, &stretch, 1, 7), [None, Some(7), None, Some(7)]);
        // On line 1 place 5 stays certain.
        assert_eq!(finds(&s, 1, &stretch, 2, 0), [Some(5), None, Some(2), None]);
        assert_eq!(finds(&s, 1, &stretch, 2, 9), [None, Some(5), None, Some(5)]);
        // A line that the unit lacks never changes.
        assert_eq!(finds(&s, 1, &stretch, 0x100, 0), [None; 4]);
        assert_eq!(finds(&s, 1, &stretch, 0, 9), [None; 4]);
    }

    #[test]
    fn the_first_sample_and_the_last() {
        let s = [5, 5, 5];
        assert_eq!(finds(&s, 1, &[0, 1], 1, 0), [None, None, Some(1), None]);
        assert_eq!(finds(&s, 1, &[0, 1], 1, 9), [None, None, None, Some(1)]);
        assert_eq!(finds(&s, 1, &[2, 1], 1, 0), [None, None, Some(2), None]);
        assert_eq!(finds(&s, 1, &[2, 1], 1, u64::MAX), [None, None, None, Some(2)]);
        assert_eq!(finds(&s, 1, &[0, 1, 2, 1], 1, 1), [None, None, Some(2), Some(1)]);
        assert_eq!(finds(&s[..1], 1, &[0, 1], 1, 0), [None; 4]);
        assert_eq!(finds(&[], 1, &[], 1, 0), [None; 4]);
    }

    #[test]
    fn unit_2_has_lines_8_to_15() {
        let s = [0, 0x0100, 0x0100];
        assert_eq!(finds(&s, 2, &[2, 1], 0x8000, 0), [None, None, Some(2), None]);
        assert_eq!(finds(&s, 2, &[2, 1], 0x0100, 0), [Some(1), None, Some(1), None]);
        assert_eq!(finds(&s, 2, &[0, 1], 0x0100, 9), [None, None, None, Some(1)]);
    }

    /// Row 18 told otherwise: a list is accepted that has the longest runs of some set of places.
    #[test]
    fn a_list_is_that_of_a_set_of_places() {
        for len in 0..5u64 {
            let runs = |set: u64| {
                let mut list: Vec<u64> = Vec::new();
                for place in (0..len).filter(|place| set >> place & 1 == 1) {
                    match list[..] {
                        [.., first, ref mut count] if first + *count == place => *count += 1,
                        _ => list.extend([place, 1]),
                    }
                }
                list
            };
            let accepted: Vec<Vec<u64>> = (0..1 << len).map(runs).collect();
            let numbers: Vec<u16> = (0..=len as u16 + 1).collect();
            let mut seen = 0;
            crate::shapes::each_short(&numbers, 6, |list| {
                let list: Vec<u64> = list.iter().map(|&number| number as u64).collect();
                let right = accepted.contains(&list);
                seen += right as usize;
                assert_eq!(refusals::stretches(&list, len).is_ok(), right, "{list:?} of {len}");
            });
            assert_eq!(seen, accepted.len());
        }
    }
}
