//! One change after another.

use crate::{Capture, Lines};
use std::iter::FusedIterator;

/// The changes of a capture's lines, in order. [`Capture::changes`] gives it.
#[derive(Clone, Debug)]
pub struct Changes<'a> {
    capture: &'a Capture,
    mask: Lines,
    from: usize,
}

impl<'a> Changes<'a> {
    pub(crate) fn new(capture: &'a Capture, mask: Lines, from: usize) -> Changes<'a> {
        Changes { capture, mask, from }
    }
}

impl Iterator for Changes<'_> {
    type Item = usize;

    fn next(&mut self) -> Option<usize> {
        self.from = self.capture.next_change(self.mask, self.from).found?;
        Some(self.from)
    }
}

// After the last change there is none again.
impl FusedIterator for Changes<'_> {}
