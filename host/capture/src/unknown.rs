//! Searches across unknown stretches.

use crate::boundary;
use crate::{Capture, Lines, Refusal, Stretch};

impl Capture {
    /// The first place after `from` with a certain change of the mask's lines: one that is there whatever the unknown samples
    /// were.
    ///
    /// Samples in a stretch may have had any value that the unit holds; what is stored there does not matter. So a change is
    /// certain where both samples are known and a line of the mask differs between them: not in a stretch, and not at the
    /// place right behind one. Without stretches it is [`next_change`](Capture::next_change). Nodes read are not counted.
    ///
    /// Refuses with [`Refusal::Stretches`] stretches that are out of order, overlap or touch, or of which one has no
    /// samples or reaches past the end. Those of [`Salvaged`](crate::Salvaged) are taken.
    ///
    /// ```
    /// use capture::{Capture, Refusal, Stretch};
    ///
    /// let mut capture = Capture::start(8, 1000)?;
    /// // The samples at 3 and 4 are unknown, and stored as 0.
    /// capture.append(&[1, 1, 1, 0, 0, 1, 1, 0])?;
    /// let unknown = [Stretch { first: 3, count: 2 }];
    /// assert_eq!(capture.next_change(0b1, 0).found, Some(3));
    /// assert_eq!(capture.next_certain(&unknown, 0b1, 0)?, Some(7));
    /// assert_eq!(capture.next_certain(&unknown, 0b1, 7)?, None);
    ///
    /// let past = [Stretch { first: 3, count: 6 }];
    /// assert_eq!(capture.next_certain(&past, 0b1, 0), Err(Refusal::Stretches));
    /// # Ok::<(), Refusal>(())
    /// ```
    pub fn next_certain(
        &self,
        stretches: &[Stretch],
        mask: Lines,
        from: usize,
    ) -> Result<Option<usize>, Refusal> {
        boundary::next_certain(&self.record, &self.memory, stretches, mask, from)
    }

    /// The last place, at `from` or before, with a certain change, as [`next_certain`](Capture::next_certain) says.
    ///
    /// ```
    /// use capture::{Capture, Stretch};
    ///
    /// let mut capture = Capture::start(8, 1000)?;
    /// capture.append(&[0, 1, 1, 0, 0, 1, 1, 0])?;
    /// let unknown = [Stretch { first: 3, count: 2 }];
    /// assert_eq!(capture.prev_certain(&unknown, 0b1, usize::MAX)?, Some(7));
    /// assert_eq!(capture.prev_certain(&unknown, 0b1, 6)?, Some(1));
    /// # Ok::<(), capture::Refusal>(())
    /// ```
    pub fn prev_certain(
        &self,
        stretches: &[Stretch],
        mask: Lines,
        from: usize,
    ) -> Result<Option<usize>, Refusal> {
        boundary::prev_certain(&self.record, &self.memory, stretches, mask, from)
    }

    /// The first place after `from` with a possible change of the mask's lines: one that is there for some values of the
    /// unknown samples.
    ///
    /// That is each certain change, and each place of which the sample or the one before is unknown, where the mask has a line
    /// that the samples have: 8 to 15 are low throughout where they have one byte. Without stretches it is
    /// [`next_change`](Capture::next_change). It refuses as [`next_certain`](Capture::next_certain) does.
    ///
    /// ```
    /// use capture::{Capture, Stretch};
    ///
    /// let mut capture = Capture::start(8, 1000)?;
    /// capture.append(&[0, 0, 0, 0, 0, 0, 0, 1])?;
    /// let unknown = [Stretch { first: 3, count: 2 }];
    /// let next = |mask, from| capture.next_possible(&unknown, mask, from);
    /// assert_eq!([next(0b1, 0)?, next(0b1, 3)?, next(0b1, 4)?], [Some(3), Some(4), Some(5)]);
    /// assert_eq!([next(0b1, 5)?, next(0b1, 7)?], [Some(7), None]);
    /// assert_eq!(next(1 << 8, 0)?, None);
    /// # Ok::<(), capture::Refusal>(())
    /// ```
    pub fn next_possible(
        &self,
        stretches: &[Stretch],
        mask: Lines,
        from: usize,
    ) -> Result<Option<usize>, Refusal> {
        boundary::next_possible(&self.record, &self.memory, stretches, mask, from)
    }

    /// The last place, at `from` or before, with a possible change, as [`next_possible`](Capture::next_possible) says.
    ///
    /// ```
    /// use capture::{Capture, Stretch};
    ///
    /// let mut capture = Capture::start(8, 1000)?;
    /// capture.append(&[0; 8])?;
    /// // No sample is before the first one.
    /// let unknown = [Stretch { first: 0, count: 2 }];
    /// let prev = |from| capture.prev_possible(&unknown, 0b1, from);
    /// assert_eq!([prev(usize::MAX)?, prev(1)?, prev(0)?], [Some(2), Some(1), None]);
    /// # Ok::<(), capture::Refusal>(())
    /// ```
    pub fn prev_possible(
        &self,
        stretches: &[Stretch],
        mask: Lines,
        from: usize,
    ) -> Result<Option<usize>, Refusal> {
        boundary::prev_possible(&self.record, &self.memory, stretches, mask, from)
    }
}
