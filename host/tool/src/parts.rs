//! A stretch of a capture cut into parts, and the changes in each.

use crate::reader::Place;
use capture::Capture;

/// Parts of a stretch, as equal as can be. There is a sample in each.
pub struct Parts {
    from: Place,
    /// The place behind the last sample.
    to: Place,
    counts: Vec<u32>,
}

impl Parts {
    /// Cuts the places from `from` up to `to`, which are stored, into `parts`, at least one and no more than there are
    /// samples. A change at the border of two parts is counted in the second of them, so that all add up to the changes of
    /// the stretch.
    pub fn new(capture: &Capture, from: Place, to: Place, parts: usize) -> Parts {
        let mut cut = Parts { from, to, counts: vec![0; parts] };
        for part in 0..parts {
            // One sample earlier, the border is inside.
            let border = Place::from(part > 0);
            let [a, b] = [cut.start(part) - border, cut.start(part + 1)].map(|at| at as usize);
            cut.counts[part] = capture.density(a, b);
        }
        cut
    }

    /// The first place of a part; of the one behind the last, the end.
    pub fn start(&self, part: usize) -> Place {
        self.from + (self.to - self.from) * part as Place / self.counts.len() as Place
    }

    /// How far along the stretch a place of it is, from 0 up to 1.
    pub fn along(&self, place: Place) -> Option<f64> {
        let inside = (self.from..self.to).contains(&place);
        inside.then(|| (place - self.from) as f64 / (self.to - self.from) as f64)
    }

    /// The changes in each.
    pub fn counts(&self) -> &[u32] {
        &self.counts
    }

    /// The changes in the busiest.
    pub fn most(&self) -> u32 {
        self.counts.iter().copied().max().unwrap_or(0)
    }
}

#[cfg(test)]
mod tests {
    use super::*;
    use crate::file::captured;

    #[test]
    fn parts_are_as_equal_as_can_be_and_add_up() {
        let samples: Vec<u8> = (0..100u8).map(|i| i / 3 % 2 + i / 7 % 2 * 2).collect();
        let capture = captured(&samples, None);
        for (from, to) in [(0, 100), (3, 4), (6, 50), (21, 100)] {
            for count in 1..=(to - from) as usize {
                let parts = Parts::new(&capture, from, to, count);
                assert_eq!((parts.start(0), parts.start(count)), (from, to));
                let lengths: Vec<Place> =
                    (0..count).map(|part| parts.start(part + 1) - parts.start(part)).collect();
                let (least, most) = (lengths.iter().min().unwrap(), lengths.iter().max().unwrap());
                assert!(1 <= *least && most - least <= 1, "{lengths:?}");
                assert_eq!(
                    parts.counts().iter().sum::<u32>(),
                    capture.density(from as usize, to as usize)
                );
            }
        }
    }

    #[test]
    fn how_far_along_a_place_is() {
        let capture = captured(&[0; 10], None);
        let parts = Parts::new(&capture, 2, 10, 3);
        assert_eq!([2, 4, 8].map(|place| parts.along(place)), [Some(0.0), Some(0.25), Some(0.75)]);
        assert_eq!([1, 10].map(|place| parts.along(place)), [None, None]);
    }

    #[test]
    fn a_change_at_a_border_is_of_the_part_that_it_begins() {
        let capture = captured(&[0, 0, 1, 1, 0, 2, 2, 3], None);
        // Changes at 2, 4, 5 and 7.
        assert_eq!(Parts::new(&capture, 0, 8, 4).counts(), [0, 1, 2, 1]);
        assert_eq!(Parts::new(&capture, 0, 8, 8).counts(), [0, 0, 1, 0, 1, 1, 0, 1]);
        // The one at the first place of the stretch is before it.
        assert_eq!(Parts::new(&capture, 2, 8, 2).counts(), [1, 2]);
        assert_eq!(Parts::new(&capture, 2, 8, 2).most(), 2);
    }
}
