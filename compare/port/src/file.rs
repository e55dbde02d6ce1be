//! The calls of shelf files.

use crate::{calls, Lent, LentMut, Record};

/// How long the capture's file is.
#[inline]
pub fn len(record: &Record, len: &mut usize) -> u32 {
    unsafe { calls::lc_file_len(record, len) }
}

/// What block 0 says: unit, len, whether there is a mark, the mark.
#[inline]
pub fn says(file: &[u8], said: &mut [usize; 4]) -> u32 {
    unsafe { calls::lc_file_says(file.as_ptr(), file.len(), said) }
}

#[inline]
pub fn write(record: &Record, lent: Lent, output: &mut [u8], len: &mut usize) -> u32 {
    let (to, room) = (output.as_mut_ptr(), output.len());
    lent!(lc_write, (record), lent, as_ptr, (to, room, len))
}

#[inline]
pub fn read(capacity: usize, file: &[u8], lent: LentMut, record: &mut Record) -> u32 {
    lent!(lc_read, (capacity, file.as_ptr(), file.len()), lent, as_mut_ptr, (record))
}

/// A file with bad blocks. The counts have names, [`out`](crate::out).
#[inline]
pub fn salvage(
    capacity: usize,
    file: &[u8],
    lent: LentMut,
    stretches: &mut [usize],
    record: &mut Record,
    counts: &mut [usize; 2],
) -> u32 {
    let (to, room) = (stretches.as_mut_ptr(), stretches.len());
    lent!(
        lc_salvage,
        (capacity, file.as_ptr(), file.len()),
        lent,
        as_mut_ptr,
        (to, room, record, counts)
    )
}
