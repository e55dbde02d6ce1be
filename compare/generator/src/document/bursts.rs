//! What CR 13 says of bursts, by a plain scan: the changes under a mask, the longest bursts of a gap, and what is wrong with
//! bursts that were found. Nothing here goes by the rule that finds one.

use crate::op::Burst;

/// First and last change, then the jumps made at the end and at the start; or none.
pub type Found = Option<[u64; 4]>;

/// The places at which a line of the mask differs from the sample before.
pub fn changes(samples: &[u16], mask: u16) -> Vec<u64> {
    let mut places = Vec::new();
    let mut before = samples.first().map_or(0, |sample| sample & mask);
    for (place, sample) in samples.iter().enumerate() {
        if sample & mask != before {
            places.push(place as u64);
            before = sample & mask;
        }
    }
    places
}

/// First and last of each two or more changes with neighbours less than the gap apart to which no other can be added.
pub fn longest(changes: &[u64], max_gap: u64) -> Vec<[u64; 2]> {
    let mut bursts: Vec<[u64; 2]> = Vec::new();
    for &place in changes {
        match bursts.last_mut() {
            Some([_, last]) if place - *last < max_gap => *last = place,
            _ => bursts.push([place, place]),
        }
    }
    bursts.retain(|[first, last]| first < last);
    bursts
}

/// Whether the jumps at both ends stayed below the budget.
pub fn stayed_below(asked: &Burst, [_, _, at_end, at_start]: [u64; 4]) -> bool {
    at_end < asked.budget && at_start < asked.budget
}

/// The bursts of a gap, which `max_gap` is in every question.
pub struct Plain<'a> {
    pub changes: &'a [u64],
    pub longest: Vec<[u64; 2]>,
    max_gap: u64,
}

impl Plain<'_> {
    pub fn new(changes: &[u64], max_gap: u64) -> Plain<'_> {
        Plain { changes, longest: longest(changes, max_gap), max_gap }
    }

    /// What is wrong with a burst, whatever others were found.
    pub fn fault(&self, asked: &Burst, found: Found) -> Option<&'static str> {
        let around = self.around(asked.sample);
        let Some(burst @ [first, last, at_end, at_start]) = found else {
            return around.map(|_| "none from a change of a burst");
        };
        let place = |change: u64| self.changes.binary_search(&change);
        let (Ok(from), Ok(to)) = (place(first), place(last)) else {
            return Some("an end is no change");
        };
        if from >= to {
            return Some("the first change is not before the last");
        }
        let near = |pair: &[u64]| pair[1] - pair[0] < self.max_gap;
        let after = self.changes[to..].get(..2).is_some_and(near);
        let before = from > 0 && near(&self.changes[from - 1..=from]);
        let longest = self.longest.contains(&[first, last]);
        let beyond = around.is_some_and(|[start, end]| first < start || end < last);
        let wrong = [
            (!self.changes[from..=to].windows(2).all(near), "a wide gap inside"),
            (at_end.max(at_start) > asked.budget, "more jumps than the budget"),
            (at_end < asked.budget && after, "a change near after the end"),
            (at_start < asked.budget && before, "a change near before the start"),
            (stayed_below(asked, burst) && !longest, "none of the longest"),
            (beyond, "not within the burst of the change that it was asked from"),
        ];
        wrong.into_iter().find(|(wrong, _)| *wrong).map(|(_, what)| what)
    }

    /// The longest burst that a place is a change of.
    fn around(&self, place: u64) -> Option<[u64; 2]> {
        self.changes.binary_search(&place).ok()?;
        let after = self.longest.partition_point(|[first, _]| *first <= place);
        self.longest[..after].last().copied().filter(|[_, last]| place <= *last)
    }

    /// Whether two bursts whose jumps stayed below are the same or share no change.
    pub fn meet_well(&self, a: [u64; 2], b: [u64; 2]) -> bool {
        let inside = |place: u64, [first, last]: [u64; 2]| first <= place && place <= last;
        a == b || !self.changes.iter().any(|&place| inside(place, a) && inside(place, b))
    }
}

/// Whether a burst found with a larger budget, all else equal, is there exactly where the other is, and not smaller.
pub fn grows(smaller: Found, larger: Found) -> bool {
    match (smaller, larger) {
        (Some(small), Some(large)) => large[0] <= small[0] && small[1] <= large[1],
        (small, large) => small == large,
    }
}

#[cfg(test)]
mod tests {
    use super::*;

    const CHANGES: [u64; 7] = [1, 2, 3, 4, 8, 9, 15];

    #[test]
    fn changes_are_of_the_lines_in_the_mask() {
        let samples = [0, 0, 1, 1, 0, 2, 2, 3];
        assert_eq!(changes(&samples, 1), [2, 4, 7]);
        assert_eq!(changes(&samples, 2), [5]);
        assert_eq!(changes(&samples, 3), [2, 4, 5, 7]);
        assert_eq!(changes(&samples, 0), []);
        assert_eq!(changes(&[1], 1), []);
        assert_eq!(changes(&[], 1), []);
    }

    #[test]
    fn the_longest_bursts_are_a_gap_apart() {
        for (max_gap, bursts) in [
            (0, &[][..]),
            (1, &[]),
            (2, &[[1, 4], [8, 9]]),
            (4, &[[1, 4], [8, 9]]),
            (5, &[[1, 9]]),
            (6, &[[1, 9]]),
            (7, &[[1, 15]]),
            (u64::MAX, &[[1, 15]]),
        ] {
            assert_eq!(longest(&CHANGES, max_gap), bursts, "{max_gap}");
        }
        assert_eq!(longest(&CHANGES[..1], 9), [[0; 2]; 0]);
        assert_eq!(longest(&[], 9), [[0; 2]; 0]);
    }

    #[test]
    fn each_fault_is_told() {
        let plain = Plain::new(&CHANGES, 2);
        let fault = |sample, budget, found| {
            let asked = Burst { mask: 1, sample, max_gap: 2, tolerance: 3, budget };
            plain.fault(&asked, found)
        };
        for (sample, budget, found) in [
            (2, 2, Some([1, 4, 1, 1])),
            (2, 1, Some([1, 4, 1, 1])),
            (1, 1, Some([1, 3, 1, 0])),
            (3, 1, Some([2, 4, 0, 1])),
            (2, 0, Some([2, 3, 0, 0])),
            (7, 1, Some([8, 9, 0, 0])),
            (15, 1, None),
            (6, 1, None),
        ] {
            assert_eq!(fault(sample, budget, found), None, "{found:?}");
        }
        for (sample, budget, found, what) in [
            (4, 2, None, "none from a change of a burst"),
            (2, 2, Some([0, 4, 1, 1]), "an end is no change"),
            (2, 2, Some([1, 5, 1, 1]), "an end is no change"),
            (2, 2, Some([4, 1, 1, 1]), "the first change is not before the last"),
            (2, 2, Some([3, 3, 0, 0]), "the first change is not before the last"),
            (2, 2, Some([1, 8, 2, 1]), "a wide gap inside"),
            (2, 2, Some([1, 4, 3, 1]), "more jumps than the budget"),
            (2, 2, Some([1, 4, 1, 3]), "more jumps than the budget"),
            (2, 2, Some([1, 3, 1, 2]), "a change near after the end"),
            (2, 2, Some([2, 4, 2, 0]), "a change near before the start"),
            (2, 2, Some([8, 9, 0, 0]), "not within the burst of the change that it was asked from"),
        ] {
            assert_eq!(fault(sample, budget, found), Some(what), "{found:?}");
        }
    }

    #[test]
    fn bursts_meet_in_a_change() {
        let plain = Plain::new(&CHANGES, 2);
        assert!(plain.meet_well([1, 4], [1, 4]));
        assert!(plain.meet_well([1, 4], [8, 9]));
        assert!(!plain.meet_well([1, 4], [2, 4]));
        assert!(!plain.meet_well([1, 2], [2, 3]));
        assert!(!plain.meet_well([1, 9], [3, 4]));
    }

    #[test]
    fn a_larger_budget_gives_no_smaller_burst() {
        let small = Some([2, 4, 1, 1]);
        for large in [small, Some([1, 4, 1, 2]), Some([2, 8, 2, 1]), Some([1, 8, 2, 2])] {
            assert!(grows(small, large));
            assert_eq!(grows(large, small), large == small);
        }
        assert!(grows(None, None) && !grows(None, small) && !grows(small, None));
        assert!(!grows(small, Some([3, 8, 2, 1])) && !grows(small, Some([1, 3, 1, 2])));
    }
}
