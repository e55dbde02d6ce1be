//! Why a call was refused.

use std::error::Error;
use std::fmt;

/// Why a call was refused. A refused call has changed nothing.
///
/// It prints in words, with the number by which the library and its header know it:
///
/// ```
/// use capture::{Capture, Refusal};
///
/// let mut capture = Capture::start(8, 2)?;
/// let refusal = capture.append(&[0, 1, 0]).unwrap_err();
/// assert_eq!(refusal, Refusal::Full);
/// assert_eq!(refusal.number(), 8);
/// assert_eq!(refusal.to_string(), "refused, 8: the samples do not fit in the capacity");
/// assert!(capture.is_empty());
/// # Ok::<(), Refusal>(())
/// ```
#[derive(Clone, Copy, Debug, PartialEq, Eq, Hash)]
#[non_exhaustive]
pub enum Refusal {
    /// 1: a capacity that is 0 or above [`MOST_SAMPLES`](crate::MOST_SAMPLES).
    Capacity,
    /// 2: lent memory is too short. This crate lends enough, so none of its calls gives this.
    Memory,
    /// 3: a term's line is above 15.
    Line,
    /// 4: the limit is above the capacity.
    Limit,
    /// 5: a fraction of no limit, or seconds beside a limit.
    WishKind,
    /// 6: a wish that is not a number, or seconds at more than 1,000,000,000 samples a second.
    WishNumber,
    /// 7: as many samples are to be kept before the trigger as the capture can hold, or more.
    Pretrigger,
    /// 8: the samples do not fit in the capacity.
    Full,
    /// 9: there is no sample at the place.
    Place,
    /// 10: a view's start or samples per pixel is infinite or not a number.
    View,
    /// 11: more than [`MOST_PIXELS`](crate::MOST_PIXELS) pixels.
    Width,
    /// 12: a [`Mill`](crate::Mill)'s search or burst has a line beyond its grant in its mask, or its encoder has one.
    Grant,
    /// 13: a [`Mill`](crate::Mill)'s place is before the first sample.
    Before,
    /// 14: an encoder's two lines are equal, or one is above 15.
    EncoderLines,
    /// 15: an output is too short for a capture's file, or a capacity too small for a file's samples.
    FileRoom,
    /// 16: no capture has such a file. [`Fault::of`](crate::Fault::of) says what is wrong with it.
    File,
    /// 17: no capture's file has such a block 0, so that nothing of it can be salvaged. [`Fault::of`](crate::Fault::of) says
    /// what is wrong with the block.
    Block0,
    /// 18: unknown stretches that are out of order, overlap or touch, or of which one has no samples or reaches past the end.
    Stretches,
}

/// Each refusal at its number less 1, with its words.
const WORDS: [(Refusal, &str); 18] = [
    (Refusal::Capacity, "a capacity is 1 to 67108864 samples"),
    (Refusal::Memory, "lent memory is too short"),
    (Refusal::Line, "a trigger's lines are 0 to 15"),
    (Refusal::Limit, "the limit is above the capacity"),
    (
        Refusal::WishKind,
        "a fraction before the trigger needs a limit, and seconds need that there is none",
    ),
    (Refusal::WishNumber, "the pre-trigger is not a number, or its rate is above 1000000000"),
    (Refusal::Pretrigger, "the samples before the trigger leave no room for it in the capacity"),
    (Refusal::Full, "the samples do not fit in the capacity"),
    (Refusal::Place, "there is no sample at that place"),
    (Refusal::View, "a view's start and samples per pixel are finite numbers"),
    (Refusal::Width, "at most 65536 pixels are drawn at once"),
    (Refusal::Grant, "a line is beyond the grant"),
    (Refusal::Before, "the place is before the first sample"),
    (Refusal::EncoderLines, "an encoder's two lines are 0 to 15, and not the same"),
    (Refusal::FileRoom, "the file does not fit in the output, or its samples in the capacity"),
    (Refusal::File, "no capture has this file"),
    (Refusal::Block0, "no capture's file begins like this"),
    (
        Refusal::Stretches,
        "unknown stretches rise, none touches the next, and none is empty or reaches past the end",
    ),
];

impl Refusal {
    /// The refusal's number in the library's header, 1 to 18.
    pub fn number(self) -> u32 {
        self as u32 + 1
    }

    /// The refusal of a number, if it is one.
    pub(crate) fn of_number(number: u32) -> Option<Refusal> {
        let index = usize::try_from(number).ok()?.checked_sub(1)?;
        WORDS.get(index).map(|&(refusal, _)| refusal)
    }
}

impl fmt::Display for Refusal {
    fn fmt(&self, f: &mut fmt::Formatter<'_>) -> fmt::Result {
        write!(f, "refused, {}: {}", self.number(), WORDS[*self as usize].1)
    }
}

impl Error for Refusal {}

#[cfg(test)]
mod tests {
    use super::*;

    #[test]
    fn each_number_has_its_refusal() {
        for (index, &(refusal, _)) in WORDS.iter().enumerate() {
            assert_eq!(refusal as usize, index);
            assert_eq!(Refusal::of_number(refusal.number()), Some(refusal));
        }
        for number in [0, 19, 100, u32::MAX] {
            assert_eq!(Refusal::of_number(number), None);
        }
    }

    #[test]
    fn it_prints_its_number() {
        for (refusal, _) in WORDS {
            assert!(refusal.to_string().starts_with(&format!("refused, {}: ", refusal.number())));
        }
    }
}
