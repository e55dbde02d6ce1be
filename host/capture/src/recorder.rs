//! A recorder: it fills a capture through a trigger.

use crate::boundary::{self, recorder, Record, RecorderRecord, RecorderStart};
use crate::memory::{Memory, Needs};
use crate::{Capture, Refusal, Settings, Wish};
use std::fmt;

/// What a push says of the recording.
#[derive(Clone, Copy, Debug, PartialEq, Eq, Hash)]
pub enum Pushed {
    /// It waits for its trigger, or takes more.
    GoingOn,
    /// The limit is reached. More pushes are taken, and store nothing.
    Complete,
}

/// Waits for a trigger with a ring of earlier samples, and then stores what comes, up to a limit.
///
/// How the samples are cut into pushes makes no difference, but that half a sample at the end of a push is dropped.
///
/// ```
/// use capture::{Condition, Pushed, Recorder, Settings, Wish};
///
/// let settings = Settings::new(8, 1000)
///     .limit(4)
///     .term(0, Condition::Rising)
///     .pretrigger(Wish::Fraction(0.5));
/// let mut recorder = Recorder::start(&settings)?;
/// assert_eq!(recorder.pretrigger(), 2);
///
/// assert_eq!(recorder.push(&[0, 0])?, Pushed::GoingOn);
/// assert!(recorder.is_armed());
/// assert_eq!(recorder.push(&[0, 1, 1])?, Pushed::Complete);
///
/// // The samples are asked for at any time between pushes.
/// assert_eq!(recorder.capture().samples(0, 4), [0, 0, 1, 1]);
/// assert_eq!(recorder.capture().mark(), Some(2));
/// # Ok::<(), capture::Refusal>(())
/// ```
#[derive(Clone)]
pub struct Recorder {
    capture: Capture,
    /// The recorder's record; the capture has a copy of the numbers that are its own.
    record: RecorderRecord,
    ring: Vec<u8>,
    cut: bool,
}

impl Recorder {
    /// Starts a recorder. Without terms it stores from the first sample on; else it is armed.
    ///
    /// Refuses settings that do not go together; [`Refusal`] lists them under 1 and 3 to 7.
    ///
    /// ```
    /// use capture::{Recorder, Refusal, Settings, Wish};
    ///
    /// let settings = Settings::new(8, 1000).limit(2000);
    /// assert_eq!(Recorder::start(&settings).unwrap_err(), Refusal::Limit);
    ///
    /// let settings = Settings::new(8, 1000).pretrigger(Wish::Fraction(0.5));
    /// assert_eq!(Recorder::start(&settings).unwrap_err(), Refusal::WishKind);
    /// ```
    pub fn start(settings: &Settings) -> Result<Recorder, Refusal> {
        let &Settings { channels, capacity, limit, rate, .. } = settings;
        let memory = Memory::new(Needs::of(channels, capacity)?);
        let (seconds, wish) = match settings.wish() {
            Wish::Fraction(fraction) => (false, fraction),
            Wish::Seconds(seconds) => (true, seconds),
        };
        // Fewer samples are kept than the capture can hold, so a ring of its size is enough until start says how
        // many.
        let mut ring = vec![0; memory.samples.len()];
        let terms = settings.term_bytes();
        let rate = usize::try_from(rate).unwrap_or(usize::MAX);
        let asked = RecorderStart { channels, capacity, limit, terms: &terms, seconds, wish, rate };
        let (record, cut) = boundary::recorder_start(asked, &memory, &ring)?;

        let capture = Capture { record: first(record), memory };
        ring.truncate(record[recorder::PRE] * capture.unit());
        ring.shrink_to_fit();
        Ok(Recorder { capture, record, ring, cut })
    }

    /// Takes the whole samples of `bytes`, of one byte or two each, low byte first. A leftover byte is dropped.
    ///
    /// Refuses with [`Refusal::Full`], and takes nothing, where there is no limit and what is to be stored does not
    /// all fit.
    ///
    /// ```
    /// use capture::{Condition, Recorder, Refusal, Settings};
    ///
    /// let mut recorder = Recorder::start(&Settings::new(8, 3).term(0, Condition::Rising))?;
    /// recorder.push(&[0, 0, 0])?;
    /// assert_eq!(recorder.push(&[1, 0, 0, 0]).unwrap_err(), Refusal::Full);
    /// recorder.push(&[1, 0, 0])?;
    /// assert_eq!(recorder.capture().len(), 3);
    /// # Ok::<(), Refusal>(())
    /// ```
    pub fn push(&mut self, bytes: &[u8]) -> Result<Pushed, Refusal> {
        let Recorder { capture, record, ring, .. } = self;
        let going_on = boundary::push(record, &mut capture.memory, ring, bytes)?;
        capture.record = first(*record);
        Ok(if going_on { Pushed::GoingOn } else { Pushed::Complete })
    }

    /// What is recorded so far, for questions between pushes.
    pub fn capture(&self) -> &Capture {
        &self.capture
    }

    /// Ends the recording and gives what was recorded.
    pub fn into_capture(self) -> Capture {
        self.capture
    }

    /// Whether it still waits for its trigger.
    pub fn is_armed(&self) -> bool {
        self.record[recorder::WAITS] != 0
    }

    /// The most samples that it stores; 0 is no limit.
    pub fn limit(&self) -> usize {
        self.record[recorder::LIMIT]
    }

    /// How many samples it keeps from before the trigger.
    pub fn pretrigger(&self) -> usize {
        self.record[recorder::PRE]
    }

    /// Whether more seconds were wished for before the trigger than the ring may hold, 67,108,864 bytes.
    pub fn is_pretrigger_cut(&self) -> bool {
        self.cut
    }
}

/// The record of its capture, with which a recorder's begins.
fn first(record: RecorderRecord) -> Record {
    std::array::from_fn(|at| record[at])
}

impl fmt::Debug for Recorder {
    /// Its numbers; its memory is too long to be shown.
    fn fmt(&self, f: &mut fmt::Formatter<'_>) -> fmt::Result {
        f.debug_struct("Recorder")
            .field("capture", &self.capture)
            .field("limit", &self.limit())
            .field("pretrigger", &self.pretrigger())
            .field("armed", &self.is_armed())
            .finish_non_exhaustive()
    }
}
