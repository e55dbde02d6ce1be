//! Which changes are looked for: those that are certain across unknown stretches, those that are possible, or those of what is
//! stored.

use crate::args::Args;
use crate::commands::{exclude, only_with};
use crate::failure::{bad, Failure};
use crate::given::Asked;
use crate::reader::{from_first, Place, Reader};
use crate::stretches::known_runs;
use capture::{Capture, Counted, Lines, Refusal, Stretch};

/// The changes that may be asked for.
const WAYS: [&str; 3] = ["--certain", "--possible", "--stored"];

pub struct Search<'a> {
    asked: &'a Asked<'a>,
    /// None where stored changes are looked for.
    across: Option<Across<'a>>,
}

/// A search of the service across unknown stretches.
type Ask = fn(&Capture, &[Stretch], Lines, usize) -> Result<Option<usize>, Refusal>;

/// The capture, its stretches, and the searches for the changes that are wanted across them.
struct Across<'a> {
    capture: &'a Capture,
    stretches: &'a [Stretch],
    next: Ask,
    prev: Ask,
}

impl<'a> Search<'a> {
    /// What is refused of the words alone.
    pub fn usage(args: &Args) -> Result<(), Failure> {
        for (at, one) in WAYS.iter().enumerate() {
            WAYS[..at].iter().try_for_each(|other| exclude(args, other, one))?;
        }
        // Nodes are counted of stored changes alone.
        ["--read", "--stored"].iter().try_for_each(|other| exclude(args, "--stretches", other))?;
        if args.flag("--stretches") && !args.flag("--certain") && !args.flag("--possible") {
            return Err(bad("--stretches goes with --certain or --possible"));
        }
        Ok(())
    }

    /// As --certain, --possible and --stored ask; without them for changes that are certain by the card. Only a capture that
    /// has a card, or is given a list, can have unknown samples.
    pub fn asked(args: &Args, asked: &'a Asked<'a>) -> Result<Search<'a>, Failure> {
        let capture = match asked.reader {
            Reader::Service(capture) if asked.has_card => capture,
            Reader::Service(capture) => {
                only_with(args, "--stretches", &WAYS[..2])?;
                capture
            }
            // A mill is not told whether there is a card.
            Reader::Mill(_) => {
                only_with(args, "--stretches", &WAYS[..2])?;
                return Ok(Search { asked, across: None });
            }
        };
        WAYS[..2].iter().try_for_each(|way| exclude(args, way, "--read"))?;
        let stretches = asked.stretches();
        if stretches.is_empty() || args.flag("--stored") {
            return Ok(Search { asked, across: None });
        }
        if args.flag("--read") {
            return Err(bad("samples are unknown: --read goes with --stored"));
        }
        let (next, prev): (Ask, Ask) = match args.flag("--possible") {
            true => (Capture::next_possible, Capture::prev_possible),
            false => (Capture::next_certain, Capture::prev_certain),
        };
        Ok(Search { asked, across: Some(Across { capture, stretches, next, prev }) })
    }

    /// The next such change. Across stretches no nodes are counted.
    pub fn next(&self, mask: Lines, from: Place) -> Result<Counted<Place>, Refusal> {
        match &self.across {
            None => self.asked.reader.next_change(mask, from),
            Some(across) => across.next(mask, from_first(from)).map(uncounted),
        }
    }

    /// The previous one, the same way.
    pub fn prev(&self, mask: Lines, from: Place) -> Result<Counted<Place>, Refusal> {
        match &self.across {
            None => self.asked.reader.prev_change(mask, from),
            Some(across) => across.prev(mask, from_first(from)).map(uncounted),
        }
    }

    /// Whether the sample at a place is known, as far as this search knows of unknown ones.
    pub fn knows(&self, place: Place) -> bool {
        let place = from_first(place);
        self.across
            .as_ref()
            .is_none_or(|across| known_runs(across.stretches, place, place + 1).next().is_some())
    }
}

fn uncounted(found: Option<usize>) -> Counted<Place> {
    Counted { found: found.map(|place| place as Place), read: 0 }
}

fn end(stretch: &Stretch) -> usize {
    stretch.first + stretch.count
}

/// The library tests its whole list in each call. So it is lent one stretch at a time: a stretch has to do with its own places
/// and the one right behind it alone, and what is found before the next stretch's holds with the whole list.
impl Across<'_> {
    fn next(&self, mask: Lines, mut from: usize) -> Result<Option<usize>, Refusal> {
        let mut at = self.stretches.partition_point(|stretch| end(stretch) <= from);
        loop {
            let found = (self.next)(self.capture, self.lent(at), mask, from)?;
            let Some(next) = self.stretches.get(at + 1) else { return Ok(found) };
            if found.is_some_and(|place| place < next.first) {
                return Ok(found);
            }
            (from, at) = (next.first - 1, at + 1);
        }
    }

    fn prev(&self, mask: Lines, mut from: usize) -> Result<Option<usize>, Refusal> {
        // One is before `at`, which counts from 1.
        let mut at = self.stretches.partition_point(|stretch| stretch.first <= from);
        loop {
            let lent = at.checked_sub(1).map_or(&[][..], |at| self.lent(at));
            let found = (self.prev)(self.capture, lent, mask, from)?;
            let Some(prev) = at.checked_sub(2).map(|at| &self.stretches[at]) else {
                return Ok(found);
            };
            if found.is_some_and(|place| place > end(prev)) {
                return Ok(found);
            }
            (from, at) = (end(prev), at - 1);
        }
    }

    /// The stretch, as a list.
    fn lent(&self, at: usize) -> &[Stretch] {
        self.stretches.get(at..=at).unwrap_or_default()
    }
}

#[cfg(test)]
mod tests {
    use super::*;
    use crate::file::captured;
    use crate::plain::unknown::stretches;
    use crate::plain::Rng;

    /// One stretch at a time finds what the whole list finds.
    #[test]
    fn from_stretch_to_stretch_is_over_the_whole_list() {
        let mut rng = Rng(93);
        for _ in 0..150 {
            let len = 1 + rng.below(120);
            let calm = 1 + rng.below(30);
            let samples: Vec<u8> = (0..len).map(|_| (rng.below(calm) == 0).into()).collect();
            let capture = &captured(&samples, None);
            let often = 1 + rng.below(9);
            let stretches = &stretches((0..len).map(|_| rng.below(often) == 0))[..];
            for mask in [0, 1, 3, 1 << 9] {
                for from in (0..len + 2).chain([usize::MAX]) {
                    let certain = Across {
                        capture,
                        stretches,
                        next: Capture::next_certain,
                        prev: Capture::prev_certain,
                    };
                    let possible = Across {
                        next: Capture::next_possible,
                        prev: Capture::prev_possible,
                        ..certain
                    };
                    let whole = |ask: Ask| ask(capture, stretches, mask, from);
                    assert_eq!(certain.next(mask, from), whole(Capture::next_certain));
                    assert_eq!(certain.prev(mask, from), whole(Capture::prev_certain));
                    assert_eq!(possible.next(mask, from), whole(Capture::next_possible));
                    assert_eq!(possible.prev(mask, from), whole(Capture::prev_possible));
                }
            }
        }
    }
}
