//! A stretch of a capture as columns, for the drawings in text and in SVG.

use crate::reader::{Place, Reader};
use crate::stretches::known_runs;
use capture::{Capture, Lines, Node, Refusal, Stretch, View, MOST_PIXELS};

/// What a line does in a column.
#[derive(Clone, Copy, Debug, PartialEq, Eq)]
pub enum Step {
    Low,
    High,
    Rise,
    Fall,
    /// It goes up and comes down again.
    Pulse,
    /// It goes down and comes up again.
    Dip,
    /// Nobody knows.
    Unknown,
}

/// Which samples of a column are known.
#[derive(Clone, Copy, Debug, PartialEq, Eq)]
enum Known {
    All,
    Some,
    None,
}

/// The lines in a column: as it is entered, those that change under it, as it is left.
#[derive(Clone, Copy, Debug, PartialEq, Eq)]
struct Column {
    entered: Lines,
    toggles: Lines,
    left: Lines,
    known: Known,
}

/// A drawn stretch. There is a sample in each column.
pub struct Wave {
    view: View,
    /// The place behind its last sample.
    end: Place,
    columns: Vec<Column>,
}

/// The most columns. One pixel more is drawn, to know how the last column is left.
pub const MOST_COLUMNS: usize = MOST_PIXELS - 1;

impl Wave {
    /// Draws the places from `from`, which is not before the first, up to `to`, or up to the capture's end; none where
    /// no sample is there. No column has less than a sample, so there may be fewer of them than `width`.
    pub fn new(
        reader: &Reader,
        from: Place,
        to: Place,
        width: usize,
    ) -> Result<Option<Wave>, Refusal> {
        let to = to.min(reader.end());
        if from >= to {
            return Ok(None);
        }
        let count = to - from;
        let width = count.min(width as Place) as usize;
        let view = view(from, to, width);
        let pixels = reader.render(view, width + 1)?;
        // Past the capture's end there is no next pixel: the last sample is what is left.
        let last =
            if to < reader.end() { pixels[width].first } else { reader.get(reader.end() - 1)? };
        let left = pixels[1..width].iter().map(|pixel| pixel.first).chain([last]);
        let columns = pixels.iter().zip(left).map(|(pixel, left)| Column {
            entered: pixel.first,
            toggles: pixel.toggles,
            left,
            known: Known::All,
        });
        Ok(Some(Wave { view, end: to, columns: columns.collect() }))
    }

    /// Tells it which samples of the service's capture are unknown. What is stored there was never measured: each column is
    /// drawn by its known samples alone.
    pub fn shade(&mut self, capture: &Capture, stretches: &[Stretch]) {
        for at in 0..self.width() {
            let [a, b] = [at, at + 1].map(|column| self.place(column).min(self.end) as usize);
            let known: usize = known_runs(stretches, a, b).map(|(begin, end)| end - begin).sum();
            let column = &mut self.columns[at];
            column.known = match known {
                0 => Known::None,
                known if known < b - a => Known::Some,
                _ => Known::All,
            };
            // As a pixel, up to and with the first sample of the next one. Where a line is another behind a stretch than before
            // it, it has changed.
            let runs = known_runs(stretches, a, capture.len().min(b + 1));
            let nodes = runs.filter_map(|(begin, end)| capture.summary(begin, end));
            let seen = nodes.reduce(|left, right| Node {
                toggles: left.toggles | right.toggles | left.last ^ right.first,
                last: right.last,
                ..left
            });
            if let Some(Node { first, last, toggles, .. }) = seen {
                (column.entered, column.toggles, column.left) = (first, toggles, last);
            }
        }
    }

    /// Whether each column has unknown samples, one or more.
    pub fn shaded(&self) -> impl Iterator<Item = bool> + '_ {
        self.columns.iter().map(|column| column.known != Known::All)
    }

    /// How many columns there are.
    pub fn width(&self) -> usize {
        self.columns.len()
    }

    /// The first place of a column.
    pub fn place(&self, column: usize) -> Place {
        (self.view.start + column as f64 * self.view.spp).floor() as Place
    }

    /// The column that a place is in.
    pub fn column(&self, place: Place) -> Option<usize> {
        if place < self.place(0) || place >= self.end {
            return None;
        }
        (0..self.width()).rev().find(|&column| self.place(column) <= place)
    }

    /// What a line does, column by column.
    pub fn steps(&self, line: u8) -> impl Iterator<Item = Step> + '_ {
        self.columns.iter().map(move |column| {
            if column.known == Known::None {
                return Step::Unknown;
            }
            let has = |lines: Lines| lines >> line & 1 == 1;
            match (has(column.toggles), has(column.entered), has(column.left)) {
                (true, false, true) => Step::Rise,
                (true, true, false) => Step::Fall,
                (true, false, false) => Step::Pulse,
                (true, true, true) => Step::Dip,
                (false, true, _) => Step::High,
                (false, false, _) => Step::Low,
            }
        })
    }
}

/// The view of these places in so many columns. The last column ends at `to` exactly: where the quotient is rounded down, the
/// edge would fall just short of it, and a change there be left out.
fn view(from: Place, to: Place, width: usize) -> View {
    let (start, end) = (from as f64, to as f64);
    let mut spp = (end - start) / width as f64;
    while (start + width as f64 * spp).floor() < end {
        spp = spp.next_up();
    }
    View { start, spp }
}

#[cfg(test)]
mod tests {
    use super::*;
    use crate::file::captured;
    use crate::plain::unknown::stretches;
    use crate::plain::Rng;
    use crate::stretches::listed;
    use Step::*;

    fn wave(samples: &[u8], from: Place, to: Place, width: usize) -> Wave {
        let capture = captured(samples, None);
        Wave::new(&Reader::Service(&capture), from, to, width).unwrap().unwrap()
    }

    fn steps(samples: &[u8], from: Place, to: Place, width: usize) -> Vec<Step> {
        wave(samples, from, to, width).steps(0).collect()
    }

    #[test]
    fn a_column_for_each_sample() {
        assert_eq!(steps(&[0, 0, 1, 1, 0, 1], 0, 6, 6), [Low, Rise, High, Fall, Rise, High]);
        assert_eq!(steps(&[0, 0, 1, 1, 0, 1], 0, 6, 100), [Low, Rise, High, Fall, Rise, High]);
        assert_eq!(steps(&[0, 0, 1, 1, 0, 1], 1, 4, 3), [Rise, High, Fall]);
    }

    #[test]
    fn several_samples_in_a_column() {
        let samples = [0, 1, 0, 0, 0, 0, 1, 1, 1, 1, 0, 1, 1, 1, 0, 0];
        assert_eq!(steps(&samples, 0, 16, 4), [Pulse, Rise, Dip, Fall]);
        // The change into the next column counts for the column that it leaves.
        assert_eq!(steps(&samples, 0, 12, 2), [Rise, Dip]);
    }

    #[test]
    fn the_last_column_ends_at_the_place_asked() {
        for width in 1..120 {
            for count in width..1_000 {
                let view = view(7, 7 + count as Place, width);
                assert_eq!((view.start + width as f64 * view.spp).floor() as usize, 7 + count);
            }
        }
        // 49 × (54 / 49) is rounded to less than 54.
        let mut samples = [0; 60];
        samples[54..].fill(1);
        assert_eq!(steps(&samples, 0, 54, 49).last(), Some(&Rise));
    }

    #[test]
    fn each_place_is_in_its_column() {
        for (from, to) in [(0, 100), (10, 90), (3, 10), (99, 100)] {
            for width in 1..110 {
                let wave = wave(&[0; 100], from, to, width);
                assert_eq!(wave.width(), width.min((to - from) as usize));
                for place in from..to {
                    let column = wave.column(place).unwrap();
                    assert!(wave.place(column) <= place);
                    assert!(column + 1 == wave.width() || place < wave.place(column + 1));
                }
                assert_eq!((wave.column(from - 1), wave.column(to)), (None, None));
            }
        }
    }

    /// A mill's columns are the service's, on granted lines, each place moved by the mark.
    #[test]
    fn a_mill_draws_the_same_columns() {
        let samples = [0, 1, 2, 2, 3, 1, 1, 0, 0, 2, 2, 2, 3, 3, 1, 0];
        let capture = captured(&samples, None);
        for (mark, width) in [(0, 4), (3, 16), (7, 8), (16, 2)] {
            let mill = Reader::Mill(capture.mill_with_mark(0b10, mark).unwrap());
            let drawn = Wave::new(&mill, mill.first(), mill.end(), width).unwrap().unwrap();
            let whole = wave(&samples, 0, 16, width);
            assert!(drawn.steps(1).eq(whole.steps(1)));
            assert!(drawn.steps(0).all(|step| step == Low));
            for column in 0..width {
                assert_eq!(drawn.place(column), whole.place(column) - mark as Place);
            }
        }
    }

    #[test]
    fn what_is_stored_in_unknown_samples_is_not_drawn() {
        let samples = [1, 1, 0, 0, 1, 1, 0, 0, 1, 1, 0, 1];
        let shaded = |pairs: &[(usize, usize)], from, to, width| {
            let capture = captured(&samples, None);
            let mut wave = Wave::new(&Reader::Service(&capture), from, to, width).unwrap().unwrap();
            wave.shade(&capture, &listed(pairs));
            (wave.steps(0).collect::<Vec<_>>(), wave.shaded().collect::<Vec<_>>())
        };
        let one = shaded(&[(2, 2)], 0, 6, 6);
        assert_eq!(one.0, [High, High, Unknown, Unknown, High, Fall]);
        assert_eq!(one.1, [false, false, true, true, false, false]);
        // Two samples a column: a stretch within one, and at its end.
        let two = shaded(&[(4, 3)], 0, 12, 6);
        assert_eq!(two.0, [Fall, Low, Unknown, Rise, Fall, Rise]);
        assert_eq!(two.1, [false, false, true, true, false, false]);
        assert_eq!(shaded(&[(2, 1), (11, 1)], 0, 12, 6).0, [High, Rise, Fall, Rise, Fall, Low]);
        // Four: the line is as before behind the stretch, or is not, and has changed then.
        let four = shaded(&[(2, 2), (9, 2)], 0, 12, 3);
        assert_eq!((four.0, four.1), (vec![High, Dip, High], vec![true, false, true]));
        assert_eq!(shaded(&[(1, 1), (5, 2)], 0, 12, 3).0, [Dip, Dip, Dip]);
        assert_eq!(shaded(&[(5, 2), (8, 4)], 4, 12, 2).0, [Fall, Unknown]);
        // The stretch begins right behind what is drawn, or is outside.
        assert_eq!(shaded(&[(2, 1)], 0, 2, 1), (vec![High], vec![false]));
        assert_eq!(shaded(&[(0, 1), (11, 1)], 4, 8, 2).1, [false; 2]);
        let all = shaded(&[(0, 12)], 0, 12, 5);
        assert_eq!(all, (vec![Unknown; 5], vec![true; 5]));
    }

    /// Whatever is stored in unknown samples, the drawing is the same; without any it is as before.
    #[test]
    fn a_drawing_is_that_of_the_known_samples() {
        let mut rng = Rng(81);
        for _ in 0..200 {
            let len = 1 + rng.below(300);
            let mut samples: Vec<u8> = (0..len).map(|_| rng.below(3) as u8 / 2).collect();
            let width = 1 + rng.below(40);
            let stretches = stretches((0..len).map(|_| rng.below(8) == 0));
            let drawn = |samples: &[u8], stretches: Option<&[Stretch]>| {
                let capture = captured(samples, None);
                let reader = Reader::Service(&capture);
                let mut wave = Wave::new(&reader, 0, len as Place, width).unwrap().unwrap();
                stretches.into_iter().for_each(|stretches| wave.shade(&capture, stretches));
                wave.columns
            };
            assert_eq!(drawn(&samples, Some(&[])), drawn(&samples, None));
            let one: Vec<_> = drawn(&samples, Some(&stretches));
            for &Stretch { first, count } in &stretches {
                samples[first..first + count].iter_mut().for_each(|sample| *sample ^= 1);
            }
            let other = drawn(&samples, Some(&stretches));
            for (one, other) in one.iter().zip(&other) {
                assert!(one == other || one.known == Known::None && other.known == Known::None);
            }
        }
    }

    #[test]
    fn a_column_is_shaded_where_a_sample_is_unknown() {
        let capture = captured(&[0; 1000], None);
        let reader = Reader::Service(&capture);
        for (first, count) in [(0, 1), (499, 1), (999, 1), (300, 400), (0, 1000), (17, 983)] {
            for (from, to, width) in [(0, 1000, 1), (0, 1000, 7), (0, 1000, 999), (250, 751, 33)] {
                let mut wave = Wave::new(&reader, from, to, width).unwrap().unwrap();
                wave.shade(&capture, &listed(&[(first, count)]));
                let unknown = (first..first + count).map(|place| wave.column(place as Place));
                let unknown: Vec<_> = unknown.flatten().collect();
                let shaded = wave.shaded().enumerate().filter(|(_, shaded)| *shaded);
                let mut columns = unknown.clone();
                columns.dedup();
                assert!(shaded.map(|(column, _)| column).eq(columns), "{first} {from} {width}");
                for (column, step) in wave.steps(0).enumerate() {
                    let places = (wave.place(column + 1) - wave.place(column)) as usize;
                    let all = unknown.iter().filter(|&&at| at == column).count() == places;
                    assert_eq!(step == Unknown, all, "{first} {from} {width} {column}");
                }
            }
        }
    }

    #[test]
    fn nothing_to_draw() {
        for (samples, from, to) in [(&[][..], 0, 0), (&[0; 10], 10, 20), (&[0; 10], 9, 9)] {
            let capture = captured(samples, None);
            assert!(Wave::new(&Reader::Service(&capture), from, to, 10).unwrap().is_none());
        }
    }
}
