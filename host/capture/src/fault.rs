//! What is wrong with a file that no capture has.

use crate::{BLOCK, MOST_SAMPLES};
use std::error::Error;
use std::fmt;

/// Where a block's payload begins, and the most bytes that it has.
const HEAD: usize = 12;
const MOST_PAYLOAD: usize = BLOCK - HEAD;

/// The payload of block 0.
const SAID: usize = 18;

/// The first thing that is wrong with a file, block by block, and in a block field by field.
///
/// It explains [`Refusal::File`](crate::Refusal::File) and decides nothing: there is one exactly where the library refuses
/// with that. Where it is block 0 that is wrong, it explains [`Refusal::Block0`](crate::Refusal::Block0) too.
///
/// ```
/// use capture::{Capture, Fault, Refusal, Wrong};
///
/// let mut capture = Capture::start(8, 1000)?;
/// capture.append(&[0, 0, 1, 1, 0, 2, 2, 3])?;
/// let mut file = vec![0; capture.file_len()];
/// capture.write(&mut file)?;
/// assert_eq!(Fault::of(&file), None);
///
/// file[512 + 4] = 9;
/// assert_eq!(Capture::read(&file, None).unwrap_err(), Refusal::File);
/// let fault = Fault::of(&file).unwrap();
/// assert_eq!((fault.block, fault.to_string().as_str()), (1, "block 1: its check is 176, and its bytes make 208"));
/// assert_eq!(Fault::of(b"").unwrap().wrong, Wrong::Short { bytes: 0 });
/// # Ok::<(), Refusal>(())
/// ```
#[derive(Clone, Copy, Debug, PartialEq, Eq, Hash)]
pub struct Fault {
    /// The block that is wrong, by its place in the file.
    pub block: usize,
    /// What is wrong with it.
    pub wrong: Wrong,
}

/// What is wrong with a block. Each is looked for where those above it are right.
#[derive(Clone, Copy, Debug, PartialEq, Eq, Hash)]
#[non_exhaustive]
pub enum Wrong {
    /// The file ends inside the block, or before it.
    Short {
        /// How many of its bytes there are.
        bytes: usize,
    },
    /// The check is not that of its bytes: some of them were changed.
    Check {
        /// The check that it has.
        has: u16,
        /// The check that its bytes make.
        due: u16,
    },
    /// The payload is not as long as the file's length of samples calls for.
    Count {
        /// The count that it has.
        has: u16,
        /// The count that is due.
        due: u16,
    },
    /// The number is not the block's place in the file.
    Number {
        /// The number that it has.
        has: u32,
    },
    /// The bytes 8 to 11 are not all zero.
    Zeros,
    /// A byte behind the payload is not zero.
    Padding {
        /// Its place in the block.
        place: usize,
    },
    /// Block 0's unit is neither 1 nor 2.
    Unit {
        /// The unit that it has.
        has: u8,
    },
    /// Block 0 says neither that there is a mark nor that there is none.
    MarkFlag {
        /// What it has in place of 0 or 1.
        has: u8,
    },
    /// Block 0's len is above [`MOST_SAMPLES`].
    Len {
        /// The len that it has.
        has: u64,
    },
    /// Block 0's mark is above its len.
    Mark {
        /// The mark that it has.
        has: u64,
        /// Its len.
        len: u64,
    },
    /// Block 0 has a mark and says that there is none.
    Unmarked {
        /// The mark that it has.
        has: u64,
    },
    /// The file goes on where it has to end, before this block.
    Long,
}

impl Fault {
    /// The first thing that is wrong with a file; none where a capture has it.
    pub fn of(file: &[u8]) -> Option<Fault> {
        let fault = |block| move |wrong| Fault { block, wrong };
        let bytes = match begun(file) {
            Ok(bytes) => bytes,
            Err(wrong) => return Some(fault(0)(wrong)),
        };
        let last = bytes.div_ceil(MOST_PAYLOAD);
        let of_block = |number: usize| {
            let count = MOST_PAYLOAD.min(bytes - (number - 1) * MOST_PAYLOAD);
            checked(file, number, count).err().map(fault(number))
        };
        let long = || (file.len() > (last + 1) * BLOCK).then(|| fault(last + 1)(Wrong::Long));
        (1..=last).find_map(of_block).or_else(long)
    }
}

/// The bytes of the samples that block 0 says the file has.
fn begun(file: &[u8]) -> Result<usize, Wrong> {
    let said = checked(file, 0, SAID)?;
    let (unit, flag, len, mark) = (said[0], said[1], little(&said[2..10]), little(&said[10..18]));
    match (unit, flag) {
        (1 | 2, 0 | 1) => {}
        (1 | 2, _) => return Err(Wrong::MarkFlag { has: flag }),
        _ => return Err(Wrong::Unit { has: unit }),
    }
    if len > MOST_SAMPLES as u64 {
        return Err(Wrong::Len { has: len });
    }
    match flag {
        0 if mark != 0 => Err(Wrong::Unmarked { has: mark }),
        1 if mark > len => Err(Wrong::Mark { has: mark, len }),
        _ => Ok(len as usize * usize::from(unit)),
    }
}

/// The payload of a block in which nothing is wrong.
fn checked(file: &[u8], number: usize, count: usize) -> Result<&[u8], Wrong> {
    let block = &file[(number * BLOCK).min(file.len())..];
    let Some(block) = block.get(..BLOCK) else {
        return Err(Wrong::Short { bytes: block.len() });
    };
    let (has, due) = (little(&block[..2]) as u16, check(block));
    if has != due {
        return Err(Wrong::Check { has, due });
    }
    let (has, due) = (little(&block[2..4]) as u16, count as u16);
    if has != due {
        return Err(Wrong::Count { has, due });
    }
    let has = little(&block[4..8]) as u32;
    if has as usize != number {
        return Err(Wrong::Number { has });
    }
    if block[8..HEAD] != [0; 4] {
        return Err(Wrong::Zeros);
    }
    let (payload, padding) = block[HEAD..].split_at(count);
    match padding.iter().position(|&byte| byte != 0) {
        Some(at) => Err(Wrong::Padding { place: HEAD + count + at }),
        None => Ok(payload),
    }
}

/// The sum of place times byte over all but the check's own bytes, modulo 65,521.
fn check(block: &[u8]) -> u16 {
    let places = block.iter().enumerate().skip(2);
    (places.map(|(place, &byte)| place * usize::from(byte)).sum::<usize>() % 65_521) as u16
}

/// A number, low byte first.
fn little(bytes: &[u8]) -> u64 {
    bytes.iter().rev().fold(0, |number, &byte| number << 8 | u64::from(byte))
}

impl fmt::Display for Fault {
    fn fmt(&self, f: &mut fmt::Formatter<'_>) -> fmt::Result {
        write!(f, "block {}: ", self.block)?;
        match self.wrong {
            Wrong::Short { bytes } => write!(f, "the file ends after {bytes} of its {BLOCK} bytes"),
            Wrong::Check { has, due } => write!(f, "its check is {has}, and its bytes make {due}"),
            Wrong::Count { has, due } => write!(f, "its payload count is {has}, and {due} is due"),
            Wrong::Number { has } => write!(f, "its number is {has}"),
            Wrong::Zeros => write!(f, "its bytes 8 to 11 are not zero"),
            Wrong::Padding { place } => {
                write!(f, "its byte {place}, behind the payload, is not zero")
            }
            Wrong::Unit { has } => write!(f, "its unit is {has}, and a unit is 1 or 2"),
            Wrong::MarkFlag { has } => write!(f, "its mark flag is {has}, and a flag is 0 or 1"),
            Wrong::Len { has } => write!(f, "its len is {has}, above {MOST_SAMPLES}"),
            Wrong::Mark { has, len } => write!(f, "its mark is {has}, above its len {len}"),
            Wrong::Unmarked { has } => {
                write!(f, "it has the mark {has}, and says that there is none")
            }
            Wrong::Long => write!(f, "the file goes on, and has to end before it"),
        }
    }
}

impl Error for Fault {}
