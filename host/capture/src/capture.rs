//! A capture and its questions.

use crate::boundary::{self, record, Record};
use crate::memory::{Memory, Needs};
use crate::{
    Burst, Bursts, Changes, Counted, Encoder, Lines, Node, Pixel, Refusal, View, WrongNode,
    MOST_PIXELS,
};
use std::fmt;

/// Samples of up to sixteen lines in order, with the tree of summaries over them by which questions hop.
///
/// It holds its memory from the start: its size follows from the channels and the capacity (see [`Needs`]) and does
/// not grow. No question changes it, so a capture may be read from several threads at once.
///
/// ```
/// use capture::Capture;
///
/// let mut capture = Capture::start(8, 1000)?;
/// capture.append(&[0, 0, 1, 1, 0, 2, 2, 3])?;
/// assert_eq!(capture.len(), 8);
/// assert_eq!(capture.get(7)?, 3);
/// assert_eq!(capture.next_change(0b01, 0).found, Some(2));
/// assert_eq!(capture.prev_change(0b01, 6).found, Some(4));
/// # Ok::<(), capture::Refusal>(())
/// ```
#[derive(Clone)]
pub struct Capture {
    pub(crate) record: Record,
    pub(crate) memory: Memory,
}

/// The answer of a call that has nothing left to refuse: the record and the memory are this crate's own and fit
/// each other.
pub(crate) fn answer<T>(answered: Result<T, Refusal>) -> T {
    answered.unwrap_or_else(|refusal| unreachable!("{refusal}"))
}

impl Capture {
    /// Starts a capture with nothing in it. More than 8 channels take two bytes a sample, else one.
    ///
    /// Refuses a capacity that is 0 or above [`MOST_SAMPLES`](crate::MOST_SAMPLES):
    ///
    /// ```
    /// use capture::{Capture, Refusal};
    ///
    /// assert_eq!(Capture::start(16, 1000)?.unit(), 2);
    /// assert_eq!(Capture::start(16, 0).unwrap_err(), Refusal::Capacity);
    /// # Ok::<(), Refusal>(())
    /// ```
    pub fn start(channels: usize, capacity: usize) -> Result<Capture, Refusal> {
        let memory = Memory::new(Needs::of(channels, capacity)?);
        let record = boundary::start(channels, capacity, &memory)?;
        Ok(Capture { record, memory })
    }

    /// Appends the whole samples of `bytes`, of one byte or two each, low byte first. A leftover byte is dropped.
    ///
    /// Refuses with [`Refusal::Full`], and takes nothing, where they do not all fit.
    ///
    /// ```
    /// let mut capture = capture::Capture::start(16, 1000)?;
    /// capture.append(&[0x34, 0x12, 0xff])?;
    /// assert_eq!(capture.samples(0, 1000), [0x1234]);
    /// # Ok::<(), capture::Refusal>(())
    /// ```
    pub fn append(&mut self, bytes: &[u8]) -> Result<(), Refusal> {
        boundary::append(&mut self.record, &mut self.memory, bytes)
    }

    /// The bytes of a sample, 1 or 2.
    pub fn unit(&self) -> usize {
        self.record[record::UNIT]
    }

    /// The most samples that it can hold.
    pub fn capacity(&self) -> usize {
        self.record[record::CAPACITY]
    }

    /// The count of stored samples.
    pub fn len(&self) -> usize {
        self.record[record::LEN]
    }

    /// Whether no sample is stored.
    pub fn is_empty(&self) -> bool {
        self.len() == 0
    }

    /// The place of the sample that fired the trigger. A [`Recorder`](crate::Recorder) sets it, and a file keeps it.
    pub fn mark(&self) -> Option<usize> {
        (self.record[record::MARKED] != 0).then_some(self.record[record::MARK])
    }

    /// The sample at a place. Refuses with [`Refusal::Place`] at and after the end.
    pub fn get(&self, i: usize) -> Result<Lines, Refusal> {
        boundary::get(&self.record, &self.memory, i)
    }

    /// The samples from a place on, `count` of them or as many as there are.
    ///
    /// ```
    /// let mut capture = capture::Capture::start(8, 1000)?;
    /// capture.append(&[0, 1, 2, 3])?;
    /// assert_eq!(capture.samples(1, 2), [1, 2]);
    /// assert_eq!(capture.samples(3, 100), [3]);
    /// assert_eq!(capture.samples(100, 100), []);
    /// # Ok::<(), capture::Refusal>(())
    /// ```
    pub fn samples(&self, start: usize, count: usize) -> Vec<Lines> {
        let mut output = vec![0; count.min(self.len().saturating_sub(start))];
        self.samples_to(start, &mut output);
        output
    }

    /// Copies the samples from a place on to `output`, as many as it takes and there are, and says how many.
    pub fn samples_to(&self, start: usize, output: &mut [Lines]) -> usize {
        answer(boundary::samples(&self.record, &self.memory, start, output.len(), output))
    }

    /// The stored bytes of a chunk, [`CHUNK`](crate::CHUNK) samples to each; none past the end.
    pub fn raw(&self, chunk: usize) -> &[u8] {
        boundary::raw(&self.record, &self.memory, chunk)
    }

    /// The stored bytes of all chunks in order, to write them somewhere.
    ///
    /// ```
    /// let mut capture = capture::Capture::start(16, 1000)?;
    /// capture.append(&[0x34, 0x12, 0x78, 0x56])?;
    /// let mut file = Vec::new();
    /// for bytes in capture.raw_chunks() {
    ///     file.extend_from_slice(bytes);
    /// }
    /// assert_eq!(file, [0x34, 0x12, 0x78, 0x56]);
    /// # Ok::<(), capture::Refusal>(())
    /// ```
    pub fn raw_chunks(&self) -> impl Iterator<Item = &[u8]> {
        (0..).map(|chunk| self.raw(chunk)).take_while(|bytes| !bytes.is_empty())
    }

    /// Whether each node of the summary tree is right, or the first that is not, lowest level first.
    ///
    /// It is proved that appends, pushes and reads leave them right. The check is for those who doubt the memory itself;
    /// it reads every sample.
    pub fn whole(&self) -> Result<(), WrongNode> {
        match answer(boundary::whole(&self.record, &self.memory)) {
            None => Ok(()),
            Some((level, number)) => Err(WrongNode { level, number }),
        }
    }

    /// The first and the last sample of the places from `a` up to `b`, that one not among them, the lines that change
    /// inside, and how many changes there are, as [`density`](Capture::density) counts them. None where no sample is
    /// stored there.
    ///
    /// ```
    /// use capture::{Capture, Node};
    ///
    /// let mut capture = Capture::start(8, 1000)?;
    /// capture.append(&[0, 0, 1, 1, 0, 2, 2, 3])?;
    /// let node = Node { first: 0, last: 3, toggles: 0b11, count: 4 };
    /// assert_eq!(capture.summary(0, 1000), Some(node));
    /// assert_eq!(capture.summary(4, 4), None);
    /// # Ok::<(), capture::Refusal>(())
    /// ```
    pub fn summary(&self, a: usize, b: usize) -> Option<Node> {
        answer(boundary::summary(&self.record, &self.memory, a, b))
    }

    /// How many changes there are inside the places from `a` up to `b`, that one not among them: the places above `a` at
    /// which any line differs from the sample before. 0 where no sample is stored there. It hops over the summaries, however
    /// busy the stretch is.
    ///
    /// A change at `a` itself is not counted. Where a stretch is cut into parts, the parts and the changes at their borders
    /// add up to the whole:
    ///
    /// ```
    /// let mut capture = capture::Capture::start(8, 1000)?;
    /// capture.append(&[0, 0, 1, 1, 0, 2, 2, 3])?;
    /// assert_eq!(capture.density(0, 1000), 4);
    /// assert_eq!(capture.density(4, 4), 0);
    /// // There is a change at 5, and none at 6.
    /// assert_eq!(capture.density(0, 5) + 1 + capture.density(5, 8), 4);
    /// assert_eq!(capture.density(0, 6) + capture.density(6, 8), 4);
    /// # Ok::<(), capture::Refusal>(())
    /// ```
    pub fn density(&self, a: usize, b: usize) -> u32 {
        answer(boundary::density(&self.record, &self.memory, a, b))
    }

    /// The first place after `from` at which a line of the mask differs from the sample before, and the nodes read to
    /// find it, or to find that there is none.
    ///
    /// ```
    /// use capture::{Capture, Counted};
    ///
    /// let mut capture = Capture::start(8, 1000)?;
    /// capture.append(&[0, 0, 1, 1, 0, 2, 2, 3])?;
    /// assert_eq!(capture.next_change(0b01, 2), Counted { found: Some(4), read: 2 });
    /// assert_eq!(capture.next_change(0b11, 4).found, Some(5));
    /// assert_eq!(capture.next_change(0b10, 5), Counted { found: None, read: 2 });
    /// assert_eq!(capture.next_change(0b01, 7), Counted { found: None, read: 0 });
    /// # Ok::<(), capture::Refusal>(())
    /// ```
    pub fn next_change(&self, mask: Lines, from: usize) -> Counted<usize> {
        answer(boundary::next_change(&self.record, &self.memory, mask, from))
    }

    /// The last place, at `from` or before, at which a line of the mask differs from the sample before, with the nodes
    /// read as in [`next_change`](Capture::next_change).
    ///
    /// ```
    /// use capture::{Capture, Counted};
    ///
    /// let mut capture = Capture::start(8, 1000)?;
    /// capture.append(&[0, 0, 1, 1, 0, 2, 2, 3])?;
    /// assert_eq!(capture.prev_change(0b01, 6), Counted { found: Some(4), read: 3 });
    /// assert_eq!(capture.prev_change(0b01, 4).found, Some(4));
    /// assert_eq!(capture.prev_change(0b01, 1).found, None);
    /// // from the end
    /// assert_eq!(capture.prev_change(0b01, usize::MAX).found, Some(7));
    /// # Ok::<(), capture::Refusal>(())
    /// ```
    pub fn prev_change(&self, mask: Lines, from: usize) -> Counted<usize> {
        answer(boundary::prev_change(&self.record, &self.memory, mask, from))
    }

    /// All changes of the mask's lines after `from`, in order. There is none at place 0, so 0 gives all of them.
    ///
    /// ```
    /// let mut capture = capture::Capture::start(8, 1000)?;
    /// capture.append(&[0, 0, 1, 1, 0, 2, 2, 3])?;
    /// assert!(capture.changes(0b01, 0).eq([2, 4, 7]));
    /// # Ok::<(), capture::Refusal>(())
    /// ```
    pub fn changes(&self, mask: Lines, from: usize) -> Changes<'_> {
        Changes::new(self, mask, from)
    }

    /// The burst of changes of the mask's lines at a place, or none.
    ///
    /// It begins with two changes less than `max_gap` apart: those around the place, else the two nearest on one
    /// side, the nearer of them at most `tolerance` away. Then each end jumps, at most `budget` times, to the
    /// furthest change that is less than `max_gap` off. The nodes read are those of all searches that this takes.
    ///
    /// Two bursts of one mask and gap, from wherever they were found, have the same first and last or share no change, if the
    /// jumps at both ends of each stayed below its budget. A larger budget, all else equal, never gives a smaller burst.
    ///
    /// ```
    /// use capture::{Burst, Capture};
    ///
    /// let mut capture = Capture::start(8, 1000)?;
    /// capture.append(&[0, 0, 1, 1, 0, 2, 2, 3])?;
    /// let burst = Burst { first: 2, last: 7, jumps_at_end: 1, jumps_at_start: 0 };
    /// assert_eq!(capture.burst_at(0b01, 3, 4, 0, 1).found, Some(burst));
    /// assert_eq!(capture.burst_at(0b01, 3, 2, 0, 1).found, None);
    /// # Ok::<(), capture::Refusal>(())
    /// ```
    pub fn burst_at(
        &self,
        mask: Lines,
        sample: usize,
        max_gap: usize,
        tolerance: usize,
        budget: usize,
    ) -> Counted<Burst> {
        let bounds = [max_gap, tolerance, budget];
        answer(boundary::burst_at(&self.record, &self.memory, mask, sample, bounds))
    }

    /// All bursts of the mask's lines, in order, each once: changes that follow each other in less than `max_gap`, two or more,
    /// with no other change less than `max_gap` away.
    ///
    /// ```
    /// use capture::{Capture, ListedBurst};
    ///
    /// let mut capture = Capture::start(8, 1000)?;
    /// // Changes at 2, 4, 5, 9 and 13, and at 20 and 22.
    /// capture.append(&[0, 0, 1, 1, 0, 1, 1, 1, 1, 0, 0, 0, 0, 1, 1, 1, 1, 1, 1, 1, 0, 0, 1])?;
    /// let bursts: Vec<ListedBurst> = capture.bursts(0b1, 4).collect();
    /// let early = ListedBurst { first: 2, last: 5, changes: 3 };
    /// let late = ListedBurst { first: 20, last: 22, changes: 2 };
    /// assert_eq!(bursts, [early, late]);
    /// assert_eq!(capture.bursts(0b1, 2).count(), 1);
    /// # Ok::<(), capture::Refusal>(())
    /// ```
    pub fn bursts(&self, mask: Lines, max_gap: usize) -> Bursts<&Capture> {
        Bursts::new(self, mask, max_gap, 0)
    }

    /// How an encoder with the lines `a` and `b` has turned, over the whole capture: its position from 0, and its steps
    /// forward, backward and skipped, as [`Encoder`] says.
    ///
    /// The samples in reverse order give the opposite position, so that what turned forward and back in the same way has come
    /// home, to 0. Where both lines change in one sample it does not move, and the next step is one from there:
    ///
    /// ```
    /// use capture::{Capture, Encoder, Refusal};
    ///
    /// let mut capture = Capture::start(8, 1000)?;
    /// capture.append(&[0b00, 0b11, 0b01])?;
    /// let turned = Encoder { position: -1, forward: 0, backward: 1, skipped: 1 };
    /// assert_eq!(capture.encoder(0, 1)?, turned);
    /// // The way back.
    /// capture.append(&[0b11, 0b00])?;
    /// let home = Encoder { position: 0, forward: 1, backward: 1, skipped: 2 };
    /// assert_eq!(capture.encoder(0, 1)?, home);
    ///
    /// assert_eq!(capture.encoder(1, 1), Err(Refusal::EncoderLines));
    /// # Ok::<(), Refusal>(())
    /// ```
    ///
    /// Refuses with [`Refusal::EncoderLines`] where the lines are equal or one is above 15. One that the samples lack, 8 to
    /// 15 where they have one byte, is low throughout.
    pub fn encoder(&self, a: usize, b: usize) -> Result<Encoder, Refusal> {
        boundary::encoder(&self.record, &self.memory, a, b)
    }

    /// Draws `width` pixels of a view, all lines at once. A pixel without samples is 0, 0.
    ///
    /// Refuses with [`Refusal::View`] numbers that are not finite, and with [`Refusal::Width`] more than
    /// [`MOST_PIXELS`] pixels.
    ///
    /// ```
    /// use capture::{Capture, Pixel, View};
    ///
    /// let mut capture = Capture::start(8, 1000)?;
    /// capture.append(&[0, 0, 1, 1, 0, 2, 2, 3])?;
    /// let pixels = capture.render(View { start: 0.0, spp: 4.0 }, 2)?;
    /// assert_eq!(pixels, [Pixel { first: 0, toggles: 0b01 }, Pixel { first: 0, toggles: 0b11 }]);
    /// # Ok::<(), capture::Refusal>(())
    /// ```
    pub fn render(&self, view: View, width: usize) -> Result<Vec<Pixel>, Refusal> {
        // A wider one is refused, and needs no memory for that.
        let mut output = vec![0; 2 * width.min(MOST_PIXELS)];
        boundary::render(&self.record, &self.memory, view.start, view.spp, width, &mut output)?;
        Ok(Pixel::of(&output))
    }
}

impl fmt::Debug for Capture {
    /// Its numbers; its memory is too long to be shown.
    fn fmt(&self, f: &mut fmt::Formatter<'_>) -> fmt::Result {
        f.debug_struct("Capture")
            .field("unit", &self.unit())
            .field("capacity", &self.capacity())
            .field("len", &self.len())
            .field("mark", &self.mark())
            .finish_non_exhaustive()
    }
}

#[cfg(test)]
mod tests {
    use super::*;

    #[test]
    fn a_node_that_is_not_its_samples_is_found() {
        let mut capture = Capture::start(8, 100).unwrap();
        capture.append(&[1; 40]).unwrap();
        assert_eq!(capture.whole(), Ok(()));
        capture.memory.levels[1][1] ^= 1;
        assert_eq!(capture.whole(), Err(WrongNode { level: 2, number: 0 }));
        capture.memory.levels[0][5] ^= 1;
        assert_eq!(capture.whole(), Err(WrongNode { level: 1, number: 1 }));
    }

    #[test]
    fn each_number_of_a_node_is_checked() {
        let mut capture = Capture::start(8, 100).unwrap();
        capture.append(&[1; 40]).unwrap();
        // Five numbers of each node; of level 1 there are two that cover samples, and two that cover none yet.
        for (level, covered) in [(1, 10), (2, 5), (3, 5), (4, 5)] {
            for at in 0..capture.memory.levels[level - 1].len() {
                let wrong = (at < covered).then_some(WrongNode { level, number: at / 5 });
                capture.memory.levels[level - 1][at] ^= 1;
                assert_eq!(capture.whole().err(), wrong);
                capture.memory.levels[level - 1][at] ^= 1;
            }
        }
    }

    /// The changes are counted by the nodes: not one sample of the second and the third is looked at.
    #[test]
    fn a_count_is_the_sum_of_the_nodes_counts_and_cut() {
        let mut capture = Capture::start(8, 96).unwrap();
        capture.append(&[1; 96]).unwrap();
        let count = |capture: &Capture| {
            let count = capture.density(0, 96);
            assert_eq!(capture.summary(0, 96).map(|node| node.count), Some(count));
            count
        };
        assert_eq!(count(&capture), 0);
        capture.memory.levels[0][5..15].copy_from_slice(&[1, 1, 0, 40_000, 3, 1, 2, 0, 50_000, 1]);
        assert_eq!(count(&capture), 40_000 + 50_000 + 65_536 * 4);
        // A border more: the first node ends with 1.
        capture.memory.levels[0][5] = 2;
        assert_eq!(count(&capture), 40_000 + 50_000 + 65_536 * 4 + 1);
        capture.memory.levels[0][9] = 0xfffe;
        assert_eq!(count(&capture), u32::MAX);
    }

    #[test]
    fn it_may_be_shared_by_threads() {
        fn shared<T: Send + Sync>() {}
        shared::<Capture>();
        shared::<crate::Recorder>();
        shared::<crate::Mill>();
    }

    #[test]
    fn it_shows_its_numbers() {
        let capture = Capture::start(8, 100).unwrap();
        assert_eq!(
            format!("{capture:?}"),
            "Capture { unit: 1, capacity: 100, len: 0, mark: None, .. }"
        );
    }
}
