//! A capture's file: it is written, and read again.

use crate::boundary;
use crate::capture::answer;
use crate::memory::{Memory, Needs};
use crate::{Capture, Fault, Refusal, MOST_SAMPLES};
use std::error::Error;
use std::fmt;
use std::io::{self, Read, Write};

/// The bytes of a block. A file is a whole number of them.
pub const BLOCK: usize = 512;

/// What block 0 of a file says of the capture.
///
/// ```
/// use capture::{Capture, Refusal, Said, BLOCK};
///
/// let mut capture = Capture::start(16, 1000)?;
/// capture.append(&[0; 600])?;
/// let mut file = vec![0; capture.file_len()];
/// capture.write(&mut file)?;
///
/// let said = Said::of(&file[..BLOCK])?;
/// assert_eq!(said, Said { unit: 2, len: 300, mark: None });
/// assert_eq!(said.file_len(), Ok(file.len()));
/// assert_eq!(Said::of(&file[1..]), Err(Refusal::File));
/// # Ok::<(), Refusal>(())
/// ```
#[derive(Clone, Copy, Debug, PartialEq, Eq, Hash)]
pub struct Said {
    /// The bytes of a sample, 1 or 2.
    pub unit: usize,
    /// The count of samples.
    pub len: usize,
    /// The place of the sample that fired.
    pub mark: Option<usize>,
}

impl Said {
    /// What the first [`BLOCK`] bytes of a file say. Nothing behind them is looked at. Refuses with [`Refusal::File`] where
    /// no capture's file begins with them, or there are fewer.
    pub fn of(file: &[u8]) -> Result<Said, Refusal> {
        boundary::file_says(file)
    }

    /// The length in bytes of the whole file. Refuses with [`Refusal::Capacity`] where no capture has such numbers.
    pub fn file_len(&self) -> Result<usize, Refusal> {
        let mark = self.mark.unwrap_or(0);
        boundary::file_len(&[self.unit, MOST_SAMPLES, self.len, self.mark.is_some().into(), mark])
    }
}

/// Why no capture was read from a stream.
#[derive(Debug)]
#[non_exhaustive]
pub enum ReadError {
    /// The stream failed.
    Stream(io::Error),
    /// What it gave was refused; with [`Refusal::File`] and [`Refusal::Block0`], what is wrong with it.
    Refused(Refusal, Option<Fault>),
    /// Block 0 could not be read, which counts as one that is missing: [`Refusal::Block0`].
    Block0(io::Error),
}

impl Capture {
    /// The length in bytes of its file.
    ///
    /// ```
    /// let mut capture = capture::Capture::start(8, 1000)?;
    /// assert_eq!(capture.file_len(), 512);
    /// capture.append(&[0; 501])?;
    /// assert_eq!(capture.file_len(), 3 * 512);
    /// # Ok::<(), capture::Refusal>(())
    /// ```
    pub fn file_len(&self) -> usize {
        answer(boundary::file_len(&self.record))
    }

    /// Writes its file at the start of `output`, and says how long that is. What `output` holds behind it stays.
    ///
    /// The file has its unit, its mark and its samples. Equal ones give equal files, whatever the capacities are.
    ///
    /// Refuses with [`Refusal::FileRoom`] an output that is shorter than [`file_len`](Capture::file_len).
    ///
    /// ```
    /// use capture::{Capture, Refusal};
    ///
    /// let mut capture = Capture::start(8, 1000)?;
    /// capture.append(&[0, 0, 1, 1, 0, 2, 2, 3])?;
    /// let mut output = [7; 1500];
    /// assert_eq!(capture.write(&mut output[..1023]), Err(Refusal::FileRoom));
    /// assert_eq!(capture.write(&mut output)?, 1024);
    /// assert_eq!(output[1024..], [7; 476]);
    ///
    /// let again = Capture::read(&output[..1024], None)?;
    /// assert_eq!(again.samples(0, 1000), [0, 0, 1, 1, 0, 2, 2, 3]);
    /// # Ok::<(), Refusal>(())
    /// ```
    pub fn write(&self, output: &mut [u8]) -> Result<usize, Refusal> {
        boundary::write(&self.record, &self.memory, output)
    }

    /// Writes its file to a stream, and says how long that is. The file is made in memory first.
    pub fn write_to(&self, mut stream: impl Write) -> io::Result<usize> {
        let mut file = vec![0; self.file_len()];
        let len = answer(self.write(&mut file));
        stream.write_all(&file)?;
        Ok(len)
    }

    /// The capture that has a file, with a capacity, or with the smallest that holds it. Its summaries are made anew.
    ///
    /// Refuses with [`Refusal::Capacity`] as [`start`](Capture::start) does; with [`Refusal::File`] where no capture has the
    /// file, and [`Fault::of`] says what is wrong; and then with [`Refusal::FileRoom`] a capacity below its len.
    ///
    /// ```
    /// use capture::{Capture, Condition, Recorder, Refusal, Settings};
    ///
    /// let mut recorder = Recorder::start(&Settings::new(8, 1000).term(0, Condition::Rising))?;
    /// recorder.push(&[0, 0, 1, 1, 0, 2, 2, 3])?;
    /// let capture = recorder.into_capture();
    /// let mut file = vec![0; capture.file_len()];
    /// capture.write(&mut file)?;
    ///
    /// let mut again = Capture::read(&file, Some(10))?;
    /// assert_eq!((again.len(), again.capacity(), again.mark()), (6, 10, Some(0)));
    /// again.append(&[3, 3])?;
    /// assert_eq!(Capture::read(&file, None)?.capacity(), 6);
    ///
    /// assert_eq!(Capture::read(&file, Some(5)).unwrap_err(), Refusal::FileRoom);
    /// file[600] ^= 1;
    /// assert_eq!(Capture::read(&file, Some(5)).unwrap_err(), Refusal::File);
    /// assert_eq!(Capture::read(&file, Some(0)).unwrap_err(), Refusal::Capacity);
    /// # Ok::<(), Refusal>(())
    /// ```
    pub fn read(file: &[u8], capacity: Option<usize>) -> Result<Capture, Refusal> {
        in_range(capacity)?;
        let (capacity, mut memory) = room(&Said::of(file)?, capacity)?;
        let record = boundary::read(capacity, file, &mut memory)?;
        Ok(Capture { record, memory })
    }

    /// The same from a stream, which has to end with the file. It refuses as [`read`](Capture::read) does.
    ///
    /// Block 0 is read first, and where it is refused nothing else is. Then no more is read, or kept in memory, than the file
    /// that block 0 calls for, and a byte that would be too many.
    ///
    /// ```
    /// use capture::Capture;
    ///
    /// let mut capture = Capture::start(8, 1000)?;
    /// capture.append(&[0, 0, 1, 1, 0, 2, 2, 3])?;
    /// let mut file = Vec::new();
    /// capture.write_to(&mut file)?;
    /// assert_eq!(Capture::read_from(&file[..], None)?.len(), 8);
    ///
    /// let error = Capture::read_from(&file[..600], None).unwrap_err();
    /// let what = "refused, 16: no capture has this file: block 1: the file ends after 88 of its 512 bytes";
    /// assert_eq!(error.to_string(), what);
    /// # Ok::<(), Box<dyn std::error::Error>>(())
    /// ```
    pub fn read_from(mut stream: impl Read, capacity: Option<usize>) -> Result<Capture, ReadError> {
        let mut file = Vec::new();
        let mut read = || {
            in_range(capacity)?;
            fill(&mut file, &mut stream, BLOCK)?;
            let len = Said::of(&file)?.file_len()?;
            fill(&mut file, &mut stream, len + 1)?;
            Ok(Capture::read(&file, capacity)?)
        };
        read().map_err(|error| match error {
            ReadError::Refused(Refusal::File, _) => {
                ReadError::Refused(Refusal::File, Fault::of(&file))
            }
            other => other,
        })
    }
}

/// Refuses a capacity as the library does.
pub(crate) fn in_range(capacity: Option<usize>) -> Result<(), Refusal> {
    capacity.map_or(Ok(()), |capacity| Needs::of(0, capacity).map(|_| ()))
}

/// The capacity that is asked for, or the smallest that holds the file, and the memory that it takes.
pub(crate) fn room(said: &Said, capacity: Option<usize>) -> Result<(usize, Memory), Refusal> {
    // A capture of no samples has room for one all the same: there is none without room.
    let capacity = capacity.unwrap_or(said.len.max(1));
    Ok((capacity, Memory::new(Needs::of(8 * said.unit, capacity)?)))
}

/// Reads until there are so many bytes, or no more.
fn fill(file: &mut Vec<u8>, stream: &mut impl Read, len: usize) -> io::Result<()> {
    let due = len - file.len();
    file.reserve_exact(due);
    stream.take(due as u64).read_to_end(file)?;
    Ok(())
}

impl From<io::Error> for ReadError {
    fn from(error: io::Error) -> ReadError {
        ReadError::Stream(error)
    }
}

impl From<Refusal> for ReadError {
    fn from(refusal: Refusal) -> ReadError {
        ReadError::Refused(refusal, None)
    }
}

impl fmt::Display for ReadError {
    fn fmt(&self, f: &mut fmt::Formatter<'_>) -> fmt::Result {
        match self {
            ReadError::Stream(error) => write!(f, "{error}"),
            ReadError::Refused(refusal, None) => write!(f, "{refusal}"),
            ReadError::Refused(refusal, Some(fault)) => write!(f, "{refusal}: {fault}"),
            ReadError::Block0(error) => write!(f, "{}: block 0: {error}", Refusal::Block0),
        }
    }
}

impl Error for ReadError {
    fn source(&self) -> Option<&(dyn Error + 'static)> {
        match self {
            ReadError::Stream(error) | ReadError::Block0(error) => Some(error),
            ReadError::Refused(refusal, _) => Some(refusal),
        }
    }
}
