//! Who asks: the service, or with --grant a mill.

use crate::args::Args;
use crate::failure::Failure;
use crate::lines;
use crate::names::Names;
use capture::{
    Burst, Capture, Counted, Encoder, Lines, ListedBurst, Mill, MillNode, Node, Pixel, Refusal,
    View,
};

/// A place as its reader counts. It holds those of both readers, and sums of them.
pub type Place = i128;

pub enum Reader<'a> {
    /// It sees all lines, and counts places from the first sample.
    Service(&'a Capture),
    /// It sees granted lines and nothing of the others, and counts places from the mark.
    Mill(Mill<'a>),
}

/// A mill is not told the unit, so its lines are named and its numbers written as those of the larger one.
const MILL_UNIT: usize = 2;

impl<'a> Reader<'a> {
    /// The reader that --grant asks for, or the service.
    pub fn asked(args: &Args, capture: &'a Capture, names: &Names) -> Result<Reader<'a>, Failure> {
        let grant = args.read_value("--grant", |text| lines::read(text, MILL_UNIT, names))?;
        let Some(grant) = grant else {
            return Ok(Reader::Service(capture));
        };
        Ok(Reader::Mill(capture.mill(lines::mask(&grant))))
    }

    /// The bytes of a sample, as far as it shows.
    pub fn unit(&self) -> usize {
        match self {
            Reader::Service(capture) => capture.unit(),
            Reader::Mill(_) => MILL_UNIT,
        }
    }

    /// All lines that it sees.
    pub fn lines(&self) -> Vec<u8> {
        let all = lines::all(self.unit());
        match self {
            Reader::Service(_) => all,
            Reader::Mill(mill) => {
                all.into_iter().filter(|&line| mill.grant() >> line & 1 == 1).collect()
            }
        }
    }

    /// Refuses lines beyond the grant. The library does so of searches and encoders alone; elsewhere it would show them as 0.
    pub fn may_see(&self, mask: Lines) -> Result<(), Refusal> {
        match self {
            Reader::Mill(mill) if mask & !mill.grant() != 0 => Err(Refusal::Grant),
            _ => Ok(()),
        }
    }

    /// The place of the first sample.
    pub fn first(&self) -> Place {
        match self {
            Reader::Service(_) => 0,
            Reader::Mill(mill) => mill.extent().first.into(),
        }
    }

    /// The place behind the last sample.
    pub fn end(&self) -> Place {
        match self {
            Reader::Service(capture) => capture.len() as Place,
            Reader::Mill(mill) => mill.extent().end.into(),
        }
    }

    /// The place of the sample that fired.
    pub fn mark(&self) -> Option<Place> {
        match self {
            Reader::Service(capture) => capture.mark().map(|mark| mark as Place),
            Reader::Mill(mill) => mill.extent().marked.then_some(0),
        }
    }

    /// The last place that it can name.
    pub fn most(&self) -> Place {
        match self {
            Reader::Service(_) => usize::MAX as Place,
            Reader::Mill(_) => i64::MAX.into(),
        }
    }

    pub fn get(&self, place: Place) -> Result<Lines, Refusal> {
        match self {
            Reader::Service(capture) => capture.get(from_first(place)),
            Reader::Mill(mill) => mill.get(from_mark(place)),
        }
    }

    /// Copies the samples from a place on, as many as there are and fit, and says how many.
    pub fn samples_to(&self, start: Place, output: &mut [Lines]) -> Result<usize, Refusal> {
        match self {
            Reader::Service(capture) => Ok(capture.samples_to(from_first(start), output)),
            Reader::Mill(mill) => mill.samples_to(from_mark(start), output),
        }
    }

    /// As a mill's, which has no count of changes; the service has that elsewhere.
    pub fn summary(&self, a: Place, b: Place) -> Result<Option<MillNode>, Refusal> {
        match self {
            Reader::Service(capture) => {
                let node = capture.summary(from_first(a), from_first(b));
                let lines = |Node { first, last, toggles, .. }| MillNode { first, last, toggles };
                Ok(node.map(lines))
            }
            Reader::Mill(mill) => mill.summary(from_mark(a), from_mark(b)),
        }
    }

    pub fn next_change(&self, mask: Lines, from: Place) -> Result<Counted<Place>, Refusal> {
        Ok(match self {
            Reader::Service(capture) => {
                capture.next_change(mask, from_first(from)).map(|place| place as Place)
            }
            Reader::Mill(mill) => mill.next_change(mask, from_mark(from))?.map(Place::from),
        })
    }

    pub fn prev_change(&self, mask: Lines, from: Place) -> Result<Counted<Place>, Refusal> {
        Ok(match self {
            Reader::Service(capture) => {
                capture.prev_change(mask, from_first(from)).map(|place| place as Place)
            }
            Reader::Mill(mill) => mill.prev_change(mask, from_mark(from))?.map(Place::from),
        })
    }

    pub fn burst_at(
        &self,
        mask: Lines,
        sample: Place,
        [max_gap, tolerance, budget]: [usize; 3],
    ) -> Result<Counted<Burst<Place>>, Refusal> {
        Ok(match self {
            Reader::Service(capture) => capture
                .burst_at(mask, from_first(sample), max_gap, tolerance, budget)
                .map(|burst| placed(burst, |place| place as Place)),
            Reader::Mill(mill) => mill
                .burst_at(mask, from_mark(sample), max_gap, tolerance, budget)?
                .map(|burst| placed(burst, Place::from)),
        })
    }

    /// All bursts, in order, each once.
    pub fn bursts(
        &self,
        mask: Lines,
        max_gap: usize,
    ) -> Result<Box<dyn Iterator<Item = ListedBurst<Place>> + '_>, Refusal> {
        Ok(match self {
            Reader::Service(capture) => Box::new(
                capture.bursts(mask, max_gap).map(|burst| listed(burst, |place| place as Place)),
            ),
            Reader::Mill(mill) => {
                Box::new(mill.bursts(mask, max_gap)?.map(|burst| listed(burst, Place::from)))
            }
        })
    }

    pub fn encoder(&self, a: u8, b: u8) -> Result<Encoder, Refusal> {
        match self {
            Reader::Service(capture) => capture.encoder(a.into(), b.into()),
            Reader::Mill(mill) => mill.encoder(a.into(), b.into()),
        }
    }

    pub fn render(&self, view: View, width: usize) -> Result<Vec<Pixel>, Refusal> {
        match self {
            Reader::Service(capture) => capture.render(view, width),
            Reader::Mill(mill) => mill.render(view, width),
        }
    }
}

/// A place of the service. What was read as a place is one; sums of places keep to what there is.
pub fn from_first(place: Place) -> usize {
    place.clamp(0, usize::MAX as Place) as usize
}

/// A place of a mill, the same way.
fn from_mark(place: Place) -> i64 {
    place.clamp(i64::MIN.into(), i64::MAX.into()) as i64
}

fn placed<P>(burst: Burst<P>, place: impl Fn(P) -> Place) -> Burst<Place> {
    let Burst { first, last, jumps_at_end, jumps_at_start } = burst;
    Burst { first: place(first), last: place(last), jumps_at_end, jumps_at_start }
}

fn listed<P>(burst: ListedBurst<P>, place: impl Fn(P) -> Place) -> ListedBurst<Place> {
    let ListedBurst { first, last, changes } = burst;
    ListedBurst { first: place(first), last: place(last), changes }
}
