//! A mill's reader: granted lines, and places that count from the mark.

use crate::boundary::{self, record, Record};
use crate::memory::Memory;
use crate::{
    Burst, Bursts, Capture, Counted, Encoder, Extent, Lines, MillNode, Pixel, Refusal, View,
    MOST_PIXELS,
};
use std::fmt;

/// A reader of a capture that sees some of its lines, its grant, and nothing of the others.
///
/// Samples, nodes and pixels show granted lines only. Places count from the mark, negative before it, or from the
/// first sample where there is no mark; [`extent`](Mill::extent) says which there are. Two captures of equal length,
/// mark and granted lines look alike to it, refusals and the nodes that searches read too, whatever their other lines,
/// units and capacities.
///
/// [`Capture::mill`] makes one. It may be copied, and borrows the capture.
///
/// ```
/// use capture::{Condition, Recorder, Refusal, Settings, Wish};
///
/// // Half of eight samples are kept from before line 3 rises.
/// let settings = Settings::new(8, 1000)
///     .limit(8)
///     .term(3, Condition::Rising)
///     .pretrigger(Wish::Fraction(0.5));
/// let mut recorder = Recorder::start(&settings)?;
/// recorder.push(&[0, 0, 1, 1, 8, 10, 10, 11])?;
///
/// // A mill that is granted lines 0 and 1 may ask between pushes, and of what is recorded.
/// let mill = recorder.capture().mill(0b0011);
/// assert_eq!((mill.extent().first, mill.extent().end), (-4, 4));
/// assert_eq!(mill.get(0)?, 0);
/// assert_eq!(mill.samples(-2, 4)?, [1, 1, 0, 2]);
/// assert_eq!(mill.next_change(0b0011, -4)?.found, Some(-2));
///
/// // Line 3 is beyond its grant, and place −5 before the first sample.
/// assert_eq!(mill.next_change(0b1000, -4), Err(Refusal::Grant));
/// assert_eq!(mill.get(-5), Err(Refusal::Before));
/// # Ok::<(), Refusal>(())
/// ```
///
/// It has no raw bytes, no check of the summary tree, no count of changes and no file, which tell of all lines:
///
/// ```compile_fail,E0599
/// let capture = capture::Capture::start(8, 1000).unwrap();
/// capture.mill(0b1).raw(0);
/// ```
///
/// ```compile_fail,E0599
/// let capture = capture::Capture::start(8, 1000).unwrap();
/// capture.mill(0b1).whole();
/// ```
///
/// ```compile_fail,E0599
/// let capture = capture::Capture::start(8, 1000).unwrap();
/// capture.mill(0b1).density(0, 8);
/// ```
///
/// ```compile_fail,E0599
/// let capture = capture::Capture::start(8, 1000).unwrap();
/// capture.mill(0b1).file_len();
/// ```
///
/// ```compile_fail,E0599
/// let capture = capture::Capture::start(8, 1000).unwrap();
/// capture.mill(0b1).write(&mut [0; 512]);
/// ```
///
/// ```compile_fail,E0599
/// let capture = capture::Capture::start(8, 1000).unwrap();
/// capture.mill(0b1).write_to(Vec::new());
/// ```
///
/// Searches across unknown stretches are the service's too:
///
/// ```compile_fail,E0599
/// let capture = capture::Capture::start(8, 1000).unwrap();
/// capture.mill(0b1).next_certain(&[], 0b1, 0);
/// ```
///
/// ```compile_fail,E0599
/// let capture = capture::Capture::start(8, 1000).unwrap();
/// capture.mill(0b1).prev_certain(&[], 0b1, 0);
/// ```
///
/// ```compile_fail,E0599
/// let capture = capture::Capture::start(8, 1000).unwrap();
/// capture.mill(0b1).next_possible(&[], 0b1, 0);
/// ```
///
/// ```compile_fail,E0599
/// let capture = capture::Capture::start(8, 1000).unwrap();
/// capture.mill(0b1).prev_possible(&[], 0b1, 0);
/// ```
#[derive(Clone, Copy)]
pub struct Mill<'a> {
    record: Record,
    memory: &'a Memory,
    grant: Lines,
}

impl Capture {
    /// A mill's reader of this capture, with a grant, a mask of lines.
    ///
    /// ```
    /// let mut capture = capture::Capture::start(8, 1000)?;
    /// capture.append(&[0, 0, 1, 1, 0, 2, 2, 3])?;
    /// let mill = capture.mill(0b10);
    /// assert_eq!(mill.samples(4, 100)?, [0, 2, 2, 2]);
    /// assert_eq!(mill.prev_change(0b10, 7)?.found, Some(5));
    /// # Ok::<(), capture::Refusal>(())
    /// ```
    pub fn mill(&self, grant: Lines) -> Mill<'_> {
        Mill { record: self.record, memory: &self.memory, grant }
    }

    /// The same where the capture's mark is kept beside it: a capture that was filled by [`append`](Capture::append) has
    /// none of its own. None where the mark is after the end.
    ///
    /// ```
    /// let mut capture = capture::Capture::start(8, 1000)?;
    /// capture.append(&[0, 0, 1, 1, 0, 2, 2, 3])?;
    /// let mill = capture.mill_with_mark(0b10, 2).unwrap();
    /// assert_eq!(mill.prev_change(0b10, 7)?.found, Some(3));
    /// assert!(capture.mill_with_mark(0b10, 9).is_none());
    /// # Ok::<(), capture::Refusal>(())
    /// ```
    pub fn mill_with_mark(&self, grant: Lines, mark: usize) -> Option<Mill<'_>> {
        let mut record = self.record;
        (record[record::MARKED], record[record::MARK]) = (1, mark);
        (mark <= self.len()).then_some(Mill { record, memory: &self.memory, grant })
    }
}

impl Mill<'_> {
    /// The lines that it sees.
    pub fn grant(&self) -> Lines {
        self.grant
    }

    /// Which places there are, and whether there is a mark.
    ///
    /// ```
    /// use capture::{Capture, Extent};
    ///
    /// let mut capture = Capture::start(8, 1000)?;
    /// capture.append(&[0, 0, 1, 1, 0, 2, 2, 3])?;
    /// assert_eq!(capture.mill(0b1).extent(), Extent { first: 0, end: 8, marked: false });
    /// let mill = capture.mill_with_mark(0b1, 2).unwrap();
    /// assert_eq!(mill.extent(), Extent { first: -2, end: 6, marked: true });
    /// # Ok::<(), capture::Refusal>(())
    /// ```
    pub fn extent(&self) -> Extent {
        // The record and the memory are this crate's own and fit each other, and there is nothing else to refuse.
        boundary::mill_extent(&self.record, self.memory)
            .unwrap_or_else(|refusal| unreachable!("{refusal}"))
    }

    /// The sample at a place. Refuses with [`Refusal::Before`] before the first sample, and with [`Refusal::Place`]
    /// at and after the end.
    ///
    /// ```
    /// use capture::{Capture, Refusal};
    ///
    /// let mut capture = Capture::start(8, 1000)?;
    /// capture.append(&[4, 5, 6, 7])?;
    /// let mill = capture.mill_with_mark(0b011, 2).unwrap();
    /// assert_eq!(mill.get(-1)?, 0b001);
    /// assert_eq!(mill.get(-3), Err(Refusal::Before));
    /// assert_eq!(mill.get(2), Err(Refusal::Place));
    /// # Ok::<(), Refusal>(())
    /// ```
    pub fn get(&self, place: i64) -> Result<Lines, Refusal> {
        boundary::mill_get(&self.record, self.memory, self.grant, place)
    }

    /// The samples from a place on, `count` of them or as many as there are; from the end on there are none. Refuses
    /// with [`Refusal::Before`] before the first sample.
    ///
    /// ```
    /// use capture::{Capture, Refusal};
    ///
    /// let mut capture = Capture::start(8, 1000)?;
    /// capture.append(&[4, 5, 6, 7])?;
    /// let mill = capture.mill_with_mark(0b011, 2).unwrap();
    /// assert_eq!(mill.samples(-2, 3)?, [0, 1, 2]);
    /// assert_eq!(mill.samples(100, 3)?, []);
    /// assert_eq!(mill.samples(-3, 3), Err(Refusal::Before));
    /// # Ok::<(), Refusal>(())
    /// ```
    pub fn samples(&self, start: i64, count: usize) -> Result<Vec<Lines>, Refusal> {
        let left = usize::try_from(self.extent().end.saturating_sub(start)).unwrap_or(0);
        // Before the first sample it is refused, and needs no memory for that.
        let mut output = vec![0; count.min(left).min(self.record[record::LEN])];
        let copied = self.samples_to(start, &mut output)?;
        output.truncate(copied);
        Ok(output)
    }

    /// Copies the samples from a place on to `output`, as many as it takes and there are, and says how many.
    pub fn samples_to(&self, start: i64, output: &mut [Lines]) -> Result<usize, Refusal> {
        boundary::mill_samples(&self.record, self.memory, self.grant, start, output.len(), output)
    }

    /// The first and the last sample of the places from `a` up to `b`, that one not among them, and the lines that
    /// change inside. None where no sample is stored there. Refuses with [`Refusal::Before`] where `a` or `b` is before
    /// the first sample.
    ///
    /// ```
    /// use capture::{Capture, MillNode, Refusal};
    ///
    /// let mut capture = Capture::start(8, 1000)?;
    /// capture.append(&[0, 0, 1, 1, 0, 2, 2, 3])?;
    /// let mill = capture.mill_with_mark(0b10, 2).unwrap();
    /// assert_eq!(mill.summary(-2, 6)?, Some(MillNode { first: 0, last: 0b10, toggles: 0b10 }));
    /// assert_eq!(mill.summary(6, 9)?, None);
    /// assert_eq!(mill.summary(0, -3), Err(Refusal::Before));
    /// # Ok::<(), Refusal>(())
    /// ```
    pub fn summary(&self, a: i64, b: i64) -> Result<Option<MillNode>, Refusal> {
        boundary::mill_summary(&self.record, self.memory, self.grant, a, b)
    }

    /// The first place after `from` at which a line of the mask differs from the sample before, with the nodes read as in
    /// [`Capture::next_change`]. Refuses with [`Refusal::Grant`] a mask that has a line beyond the grant, and then with
    /// [`Refusal::Before`] a place before the first sample.
    ///
    /// ```
    /// use capture::{Capture, Counted, Refusal};
    ///
    /// let mut capture = Capture::start(8, 1000)?;
    /// capture.append(&[0, 0, 1, 1, 0, 2, 2, 3])?;
    /// let mill = capture.mill_with_mark(0b01, 4).unwrap();
    /// assert_eq!(mill.next_change(0b01, -4)?, Counted { found: Some(-2), read: 2 });
    /// assert_eq!(mill.next_change(0b01, 0)?.found, Some(3));
    /// assert_eq!(mill.next_change(0b01, 3)?.found, None);
    /// assert_eq!(mill.next_change(0b11, -9), Err(Refusal::Grant));
    /// assert_eq!(mill.next_change(0b01, -9), Err(Refusal::Before));
    /// # Ok::<(), Refusal>(())
    /// ```
    pub fn next_change(&self, mask: Lines, from: i64) -> Result<Counted<i64>, Refusal> {
        boundary::mill_next_change(&self.record, self.memory, self.grant, mask, from)
    }

    /// The last place, at `from` or before, at which a line of the mask differs from the sample before. It counts and
    /// refuses as [`next_change`](Mill::next_change) does.
    ///
    /// ```
    /// let mut capture = capture::Capture::start(8, 1000)?;
    /// capture.append(&[0, 0, 1, 1, 0, 2, 2, 3])?;
    /// let mill = capture.mill_with_mark(0b01, 4).unwrap();
    /// assert_eq!(mill.prev_change(0b01, 0)?.found, Some(0));
    /// assert_eq!(mill.prev_change(0b01, -1)?.found, Some(-2));
    /// // from the end
    /// assert_eq!(mill.prev_change(0b01, i64::MAX)?.found, Some(3));
    /// # Ok::<(), capture::Refusal>(())
    /// ```
    pub fn prev_change(&self, mask: Lines, from: i64) -> Result<Counted<i64>, Refusal> {
        boundary::mill_prev_change(&self.record, self.memory, self.grant, mask, from)
    }

    /// The burst of changes of the mask's lines at a place, or none, as [`Capture::burst_at`] finds and counts it, and what is
    /// said there of two bursts holds here. It refuses as [`next_change`](Mill::next_change) does.
    ///
    /// ```
    /// use capture::{Burst, Capture};
    ///
    /// let mut capture = Capture::start(8, 1000)?;
    /// capture.append(&[0, 0, 1, 1, 0, 2, 2, 3])?;
    /// let mill = capture.mill_with_mark(0b01, 5).unwrap();
    /// let burst = Burst { first: -3, last: 2, jumps_at_end: 1, jumps_at_start: 0 };
    /// assert_eq!(mill.burst_at(0b01, -2, 4, 0, 1)?.found, Some(burst));
    /// # Ok::<(), capture::Refusal>(())
    /// ```
    pub fn burst_at(
        &self,
        mask: Lines,
        sample: i64,
        max_gap: usize,
        tolerance: usize,
        budget: usize,
    ) -> Result<Counted<Burst<i64>>, Refusal> {
        let bounds = [max_gap, tolerance, budget];
        boundary::mill_burst_at(&self.record, self.memory, self.grant, mask, sample, bounds)
    }

    /// All bursts of the mask's lines, in order, each once, as [`Capture::bursts`] lists them. Refuses with [`Refusal::Grant`]
    /// a mask that has a line beyond the grant.
    ///
    /// ```
    /// use capture::{Capture, ListedBurst, Refusal};
    ///
    /// let mut capture = Capture::start(8, 1000)?;
    /// capture.append(&[0, 0, 1, 1, 0, 2, 2, 3])?;
    /// let mill = capture.mill_with_mark(0b01, 5).unwrap();
    /// assert!(mill.bursts(0b01, 3)?.eq([ListedBurst { first: -3, last: -1, changes: 2 }]));
    /// assert_eq!(mill.bursts(0b11, 3).err(), Some(Refusal::Grant));
    /// # Ok::<(), Refusal>(())
    /// ```
    pub fn bursts(&self, mask: Lines, max_gap: usize) -> Result<Bursts<Self>, Refusal> {
        let first = self.extent().first;
        // Whether the mask is refused.
        self.next_change(mask, first)?;
        Ok(Bursts::new(*self, mask, max_gap, first))
    }

    /// How an encoder with the lines `a` and `b` has turned, from the first sample on, as [`Capture::encoder`] says. Refuses
    /// with [`Refusal::EncoderLines`] as that does, and then with [`Refusal::Grant`] a line beyond the grant.
    ///
    /// ```
    /// use capture::{Capture, Encoder, Refusal};
    ///
    /// let mut capture = Capture::start(8, 1000)?;
    /// capture.append(&[0b000, 0b101, 0b111, 0b011])?;
    /// let mill = capture.mill_with_mark(0b011, 2).unwrap();
    /// let turned = Encoder { position: 2, forward: 2, backward: 0, skipped: 0 };
    /// assert_eq!(mill.encoder(0, 1)?, turned);
    /// assert_eq!(mill.encoder(2, 2), Err(Refusal::EncoderLines));
    /// assert_eq!(mill.encoder(0, 2), Err(Refusal::Grant));
    /// # Ok::<(), Refusal>(())
    /// ```
    pub fn encoder(&self, a: usize, b: usize) -> Result<Encoder, Refusal> {
        boundary::mill_encoder(&self.record, self.memory, self.grant, a, b)
    }

    /// Draws `width` pixels of a view, all granted lines at once. A pixel without samples is 0, 0, and the view may
    /// begin before the first sample.
    ///
    /// Refuses with [`Refusal::View`] numbers that are not finite, and with [`Refusal::Width`] more than
    /// [`MOST_PIXELS`] pixels.
    ///
    /// ```
    /// use capture::{Capture, Pixel, View};
    ///
    /// let mut capture = Capture::start(8, 1000)?;
    /// capture.append(&[0, 0, 1, 1, 0, 2, 2, 3])?;
    /// let mill = capture.mill_with_mark(0b10, 4).unwrap();
    /// let pixels = mill.render(View { start: -8.0, spp: 4.0 }, 3)?;
    /// let [blank, before, after] = pixels[..] else { panic!() };
    /// assert_eq!(blank, Pixel { first: 0, toggles: 0 });
    /// assert_eq!(before, Pixel { first: 0, toggles: 0 });
    /// assert_eq!(after, Pixel { first: 0, toggles: 0b10 });
    /// # Ok::<(), capture::Refusal>(())
    /// ```
    pub fn render(&self, view: View, width: usize) -> Result<Vec<Pixel>, Refusal> {
        // A wider one is refused, and needs no memory for that.
        let mut output = vec![0; 2 * width.min(MOST_PIXELS)];
        let edges = [view.start, view.spp];
        boundary::mill_render(&self.record, self.memory, self.grant, edges, width, &mut output)?;
        Ok(Pixel::of(&output))
    }
}

impl fmt::Debug for Mill<'_> {
    /// What it may see of the capture's numbers: its unit and capacity are not among that.
    fn fmt(&self, f: &mut fmt::Formatter<'_>) -> fmt::Result {
        f.debug_struct("Mill")
            .field("grant", &self.grant)
            .field("extent", &self.extent())
            .finish_non_exhaustive()
    }
}
