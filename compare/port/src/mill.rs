//! The calls of a mill's reader. Each takes its grant behind the lent memory.

use crate::{calls, Lent, Record};

#[inline]
pub fn extent(
    record: &Record,
    lent: Lent,
    first: &mut i64,
    end: &mut i64,
    marked: &mut usize,
) -> u32 {
    lent!(lc_mill_extent, (record), lent, as_ptr, (first, end, marked))
}

#[inline]
pub fn get(record: &Record, lent: Lent, grant: u16, place: i64, value: &mut u16) -> u32 {
    lent!(lc_mill_get, (record), lent, as_ptr, (grant, place, value))
}

#[inline]
pub fn samples(
    record: &Record,
    lent: Lent,
    grant: u16,
    start: i64,
    count: usize,
    output: &mut [u16],
    copied: &mut usize,
) -> u32 {
    let (to, room) = (output.as_mut_ptr(), output.len());
    lent!(lc_mill_samples, (record), lent, as_ptr, (grant, start, count, to, room, copied))
}

#[inline]
pub fn summary(
    record: &Record,
    lent: Lent,
    grant: u16,
    a: i64,
    b: i64,
    node: &mut [u16; 3],
) -> u32 {
    lent!(lc_mill_summary, (record), lent, as_ptr, (grant, a, b, node))
}

#[inline]
pub fn next_change(
    record: &Record,
    lent: Lent,
    grant: u16,
    mask: u16,
    from: i64,
    place: &mut i64,
    read: &mut usize,
) -> u32 {
    lent!(lc_mill_next_change, (record), lent, as_ptr, (grant, mask, from, place, read))
}

#[inline]
pub fn prev_change(
    record: &Record,
    lent: Lent,
    grant: u16,
    mask: u16,
    from: i64,
    place: &mut i64,
    read: &mut usize,
) -> u32 {
    lent!(lc_mill_prev_change, (record), lent, as_ptr, (grant, mask, from, place, read))
}

/// What a burst is asked by.
#[derive(Clone, Copy)]
pub struct Asked {
    pub mask: u16,
    pub sample: i64,
    pub max_gap: usize,
    pub tolerance: usize,
    pub budget: usize,
}

/// The ends become first and last, the jumps those at the end and at the start.
#[inline]
pub fn burst_at(
    record: &Record,
    lent: Lent,
    grant: u16,
    asked: Asked,
    [first, last]: &mut [i64; 2],
    jumps: &mut [usize; 2],
    read: &mut usize,
) -> u32 {
    let Asked { mask, sample, max_gap, tolerance, budget } = asked;
    lent!(
        lc_mill_burst_at,
        (record),
        lent,
        as_ptr,
        (grant, mask, sample, max_gap, tolerance, budget, first, last, jumps, read)
    )
}

#[inline]
pub fn encoder(
    record: &Record,
    lent: Lent,
    grant: u16,
    a: usize,
    b: usize,
    position: &mut i64,
    counts: &mut [usize; 3],
) -> u32 {
    lent!(lc_mill_encoder, (record), lent, as_ptr, (grant, a, b, position, counts))
}

#[inline]
pub fn render(
    record: &Record,
    lent: Lent,
    grant: u16,
    start: f64,
    spp: f64,
    width: usize,
    output: &mut [u16],
) -> u32 {
    let (to, room) = (output.as_mut_ptr(), output.len());
    lent!(lc_mill_render, (record), lent, as_ptr, (grant, start, spp, width, to, room))
}
