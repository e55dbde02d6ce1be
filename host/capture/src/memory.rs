//! The memory that a capture is lent.

use crate::boundary::{self, out};
use crate::Refusal;

/// How much memory a capture takes.
///
/// ```
/// let needs = capture::Needs::of(16, 1_048_576)?;
/// assert_eq!(needs.samples, 2 * 1_048_576);
/// assert_eq!(needs.levels, [5 * 32_768, 5 * 1_024, 5 * 32, 5]);
/// assert_eq!(needs.bytes(), 2435402);
/// # Ok::<(), capture::Refusal>(())
/// ```
#[derive(Clone, Copy, Debug, PartialEq, Eq)]
pub struct Needs {
    /// The bytes of the samples.
    pub samples: usize,
    /// The 16-bit numbers of the levels 1 to 4 of the summary tree, five to a node.
    pub levels: [usize; 4],
}

impl Needs {
    /// What a capture of so many channels and samples takes. More than 8 channels take two bytes a sample, else
    /// one.
    pub fn of(channels: usize, capacity: usize) -> Result<Needs, Refusal> {
        let sizes = boundary::needs(channels, capacity)?;
        let levels = [out::SIZE_LEVEL_1, out::SIZE_LEVEL_2, out::SIZE_LEVEL_3, out::SIZE_LEVEL_4];
        Ok(Needs { samples: sizes[out::SIZE_SAMPLES], levels: levels.map(|at| sizes[at]) })
    }

    /// All of it in bytes.
    pub fn bytes(&self) -> usize {
        self.samples + size_of::<u16>() * self.levels.iter().sum::<usize>()
    }
}

/// The memory of one capture, of the size that it needs. It is lent whole to each call.
#[derive(Clone)]
pub(crate) struct Memory {
    pub samples: Vec<u8>,
    pub levels: [Vec<u16>; 4],
}

impl Memory {
    pub fn new(needs: Needs) -> Memory {
        Memory {
            samples: vec![0; needs.samples],
            levels: needs.levels.map(|numbers| vec![0; numbers]),
        }
    }
}
