//! What is good of a damaged file.

use crate::boundary;
use crate::file::{in_range, room};
use crate::{Capture, Fault, ReadError, Refusal, Said, BLOCK};
use std::io::{self, Read, Seek, SeekFrom};

/// Bytes that are read from a disk at once, whole blocks.
const PIECE: usize = 2048 * BLOCK;

/// An unknown stretch of a capture: samples that stood in bad blocks, and are stored as 0.
// As the library has it in a list: two numbers, in this order.
#[repr(C)]
#[derive(Clone, Copy, Debug, PartialEq, Eq, Hash)]
pub struct Stretch {
    /// The place of its first sample.
    pub first: usize,
    /// The count of its samples, 1 or more.
    pub count: usize,
}

/// What was salvaged of a file.
#[derive(Clone, Debug)]
pub struct Salvaged {
    /// The capture, with 0 for each sample that is unknown.
    pub capture: Capture,
    /// Where they are: the unknown stretches in rising order, none touching the next, as
    /// [`next_certain`](Capture::next_certain) and its like take them.
    pub stretches: Vec<Stretch>,
    /// How many samples are unknown, in all stretches together.
    pub replaced: usize,
    /// How many blocks a disk could not give at all ([`Capture::salvage_from`]). They are bad, as others may be.
    pub unread: usize,
}

impl Capture {
    /// What is good of a damaged file, with a capacity, or with the smallest that holds the capture. Its summaries are made
    /// anew.
    ///
    /// A block is good where it is wholly there, its check holds, its number is its place in the file, and its count and its
    /// fixed zeros are those that block 0 calls for. Samples in good blocks land at their own places, and the others are
    /// stored as 0 and told in [`Salvaged::stretches`]. Blocks missing at the end are bad, and bytes after the last one that
    /// block 0 calls for are passed over. Of a file that [`read`](Capture::read) takes, all is good.
    ///
    /// Refuses with [`Refusal::Capacity`] as [`start`](Capture::start) does; with [`Refusal::Block0`] where no capture's file
    /// begins with its first [`BLOCK`] bytes, and [`Fault::of`] says what is wrong; and then with [`Refusal::FileRoom`] a
    /// capacity below its len.
    ///
    /// ```
    /// use capture::{Capture, Refusal, Stretch};
    ///
    /// let mut capture = Capture::start(8, 2000)?;
    /// capture.append(&[7; 1200])?;
    /// let mut file = vec![0; capture.file_len()];
    /// capture.write(&mut file)?;
    ///
    /// // A byte of block 2, which holds the samples 500 to 999.
    /// file[2 * 512 + 100] ^= 1;
    /// assert_eq!(Capture::read(&file, None).unwrap_err(), Refusal::File);
    /// let salvaged = Capture::salvage(&file, None)?;
    /// assert_eq!(salvaged.stretches, [Stretch { first: 500, count: 500 }]);
    /// assert_eq!(salvaged.replaced, 500);
    /// assert_eq!(salvaged.capture.samples(499, 2), [7, 0]);
    /// assert_eq!(salvaged.capture.samples(999, 2), [0, 7]);
    ///
    /// assert_eq!(Capture::salvage(&file, Some(1199)).unwrap_err(), Refusal::FileRoom);
    /// file[0] ^= 1;
    /// assert_eq!(Capture::salvage(&file, Some(1199)).unwrap_err(), Refusal::Block0);
    /// assert_eq!(Capture::salvage(&file, Some(0)).unwrap_err(), Refusal::Capacity);
    /// # Ok::<(), Refusal>(())
    /// ```
    pub fn salvage(file: &[u8], capacity: Option<usize>) -> Result<Salvaged, Refusal> {
        in_range(capacity)?;
        let said = begun(file)?;
        let (capacity, mut memory) = room(&said, capacity)?;
        // Between two stretches there is a good block, and block 0 is not in any: two numbers a stretch are no more than
        // one a block.
        let mut list = vec![0; said.file_len()? / BLOCK];
        let (record, count, replaced) = boundary::salvage(capacity, file, &mut memory, &mut list)?;
        let pairs = list[..2 * count].chunks_exact(2);
        let stretches = pairs.map(|pair| Stretch { first: pair[0], count: pair[1] }).collect();
        Ok(Salvaged { capture: Capture { record, memory }, stretches, replaced, unread: 0 })
    }

    /// The same from a disk, going on behind what it cannot give: a block that cannot be read is a bad one, and
    /// [`Salvaged::unread`] counts them. It refuses as [`salvage`](Capture::salvage) does.
    ///
    /// The file begins where the stream stands. It is read in large pieces, and only where a piece fails block by block. No
    /// more is read than block 0 calls for; where that cannot be read, this is [`ReadError::Block0`]. A stream that cannot go
    /// to a place, such as a pipe, is read too, and ends this where it fails, with [`ReadError::Stream`].
    ///
    /// ```
    /// use capture::Capture;
    /// use std::io::Cursor;
    ///
    /// let mut capture = Capture::start(8, 2000)?;
    /// capture.append(&[7; 1200])?;
    /// let mut file = Vec::new();
    /// capture.write_to(&mut file)?;
    ///
    /// let salvaged = Capture::salvage_from(Cursor::new(&file[..1600]), None)?;
    /// assert_eq!((salvaged.replaced, salvaged.unread), (200, 0));
    ///
    /// let error = Capture::salvage_from(Cursor::new(&file[..500]), None).unwrap_err();
    /// let what = "refused, 17: no capture's file begins like this: block 0: the file ends after 500 of its 512 bytes";
    /// assert_eq!(error.to_string(), what);
    /// # Ok::<(), Box<dyn std::error::Error>>(())
    /// ```
    pub fn salvage_from(
        stream: impl Read + Seek,
        capacity: Option<usize>,
    ) -> Result<Salvaged, ReadError> {
        in_range(capacity)?;
        let mut disk = Disk::new(stream);
        disk.fill(BLOCK).map_err(ReadError::Block0)?;
        let said = begun(&disk.file)
            .map_err(|refusal| ReadError::Refused(refusal, Fault::of(&disk.file)))?;
        disk.read(said.file_len()?)?;
        let salvaged = Capture::salvage(&disk.file, capacity)?;
        Ok(Salvaged { unread: disk.unread, ..salvaged })
    }
}

/// What block 0 says. Without it nothing can be salvaged.
fn begun(file: &[u8]) -> Result<Said, Refusal> {
    Said::of(file).map_err(|_| Refusal::Block0)
}

/// A file on a disk, as far as it was read.
struct Disk<S> {
    stream: S,
    /// Where the file begins in the stream; none where that has no places.
    begin: Option<u64>,
    /// Its bytes, with zeros for a block that could not be read.
    file: Vec<u8>,
    /// How many such blocks there are.
    unread: usize,
}

impl<S: Read + Seek> Disk<S> {
    fn new(mut stream: S) -> Disk<S> {
        let begin = stream.stream_position().ok();
        Disk { stream, begin, file: Vec::new(), unread: 0 }
    }

    /// Reads on until there are `len` bytes or the stream ends. Where it fails, what came before is there.
    fn fill(&mut self, len: usize) -> io::Result<()> {
        let mut at = self.file.len();
        self.file.resize(len, 0);
        let mut filled = Ok(());
        while at < len {
            match self.stream.read(&mut self.file[at..]) {
                Ok(0) => break,
                Ok(count) => at += count,
                Err(error) if error.kind() == io::ErrorKind::Interrupted => {}
                Err(error) => {
                    filled = Err(error);
                    break;
                }
            }
        }
        self.file.truncate(at);
        filled
    }

    /// Reads on until there are `len` bytes, whole blocks, or the stream ends.
    fn read(&mut self, len: usize) -> io::Result<()> {
        self.file.reserve_exact(len - self.file.len());
        // Up to where blocks are read one at a time.
        let mut careful = 0;
        while self.file.len() < len {
            let from = self.file.len();
            let to = len.min(from + if from < careful { BLOCK } else { PIECE });
            let filled = self.fill(to);
            let read = self.file.len();
            match filled {
                Ok(()) if read < to => break,
                Ok(()) => {}
                Err(error) => {
                    if to - from > BLOCK {
                        careful = to;
                        self.file.truncate(read - read % BLOCK);
                    } else {
                        self.unread += 1;
                        self.file.truncate(from);
                        self.file.resize(to, 0);
                    }
                    self.go_on(error)?;
                }
            }
        }
        Ok(())
    }

    /// Goes to the place of the next byte. Where that is not possible, it ends with the error that made it necessary.
    fn go_on(&mut self, error: io::Error) -> io::Result<()> {
        let Some(begin) = self.begin else { return Err(error) };
        let place = begin + self.file.len() as u64;
        self.stream.seek(SeekFrom::Start(place)).map(|_| ()).map_err(|_| error)
    }
}
