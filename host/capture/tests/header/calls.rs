//! The exports, each called with what is lent.

use crate::given::{Given, Lent};
use capture as _; // links the library

macro_rules! exports {
    ($(fn $name:ident($($parameter:ident: $type:ty),*) -> $result:ty;)*) => {
        extern "C" {
            $(fn $name($($parameter: $type),*) -> $result;)*
        }
        /// The exports' names, and the types of their parameters.
        pub const EXPORTS: &[(&str, &[&str])] = &[$((stringify!($name), &[$(stringify!($type)),*])),*];
    };
}

include!("../../../../include/logic_core.rs");

/// Calls with the lent memory between the arguments before and after it.
macro_rules! lent {
    ($lent:ident, $name:ident, ($($before:expr),*), ($($after:expr),*)) => {{
        let ([l1, l2, l3, l4], [n1, n2, n3, n4]) = ($lent.levels, $lent.given.levels.each_ref().map(Vec::len));
        // SAFETY: all pointers are into pages of ours, and valid for the lengths given with them.
        unsafe {
            $name(
                $($before,)*
                $lent.samples, $lent.given.samples.len(), l1, n1, l2, n2, l3, n3, l4, n4,
                $($after,)*
            )
        }
    }};
}

pub fn needs(l: &Lent) -> u32 {
    // SAFETY: the pointer is into pages of ours, to as many numbers.
    unsafe { lc_needs(l.given.channels, l.given.capacity, l.numbers) }
}

pub fn start(l: &Lent) -> u32 {
    lent!(l, lc_start, (l.given.channels, l.given.capacity), (l.begun.cast()))
}

pub fn append(l: &Lent) -> u32 {
    lent!(l, lc_append, (l.store()), (l.bytes, l.given.bytes.len()))
}

pub fn get(l: &Lent) -> u32 {
    lent!(l, lc_get, (l.store()), (l.given.place, l.number(0)))
}

pub fn samples(l: &Lent) -> u32 {
    let Given { place, count, output, .. } = l.given;
    lent!(l, lc_samples, (l.store()), (place, count, l.output, output, l.number(0)))
}

pub fn whole(l: &Lent) -> u32 {
    lent!(l, lc_whole, (l.store()), (l.number(0), l.number(1)))
}

pub fn summary(l: &Lent) -> u32 {
    let Given { place, end, .. } = l.given;
    lent!(l, lc_summary, (l.store()), (place, end, l.output.cast(), l.number(0)))
}

pub fn density(l: &Lent) -> u32 {
    lent!(l, lc_density, (l.store()), (l.given.place, l.given.end, l.number(0)))
}

pub fn next_change(l: &Lent) -> u32 {
    lent!(l, lc_next_change, (l.store()), (l.given.mask, l.given.place, l.number(0), l.read))
}

pub fn prev_change(l: &Lent) -> u32 {
    lent!(l, lc_prev_change, (l.store()), (l.given.mask, l.given.place, l.number(0), l.read))
}

pub fn burst_at(l: &Lent) -> u32 {
    let Given { mask, place, max_gap, .. } = l.given;
    lent!(l, lc_burst_at, (l.store()), (mask, place, max_gap, 1, 1, l.numbers.cast(), l.read))
}

pub fn encoder(l: &Lent) -> u32 {
    let [a, b] = l.given.lines;
    lent!(l, lc_encoder, (l.store()), (a, b, l.mill_place(0), l.numbers.cast()))
}

pub fn render(l: &Lent) -> u32 {
    let Given { start, spp, width, output, .. } = l.given;
    lent!(l, lc_render, (l.store()), (start, spp, width, l.output, output))
}

pub fn file_len(l: &Lent) -> u32 {
    // SAFETY: the pointers are into pages of ours, to as many numbers.
    unsafe { lc_file_len(l.store(), l.number(0)) }
}

pub fn file_says(l: &Lent) -> u32 {
    // SAFETY: the pointers are into pages of ours, to as many bytes and numbers.
    unsafe { lc_file_says(l.file, l.given.file.len(), l.numbers.cast()) }
}

pub fn write(l: &Lent) -> u32 {
    lent!(l, lc_write, (l.store()), (l.file_output, l.given.file_room, l.number(0)))
}

pub fn read(l: &Lent) -> u32 {
    lent!(l, lc_read, (l.given.capacity, l.file, l.given.file.len()), (l.begun.cast()))
}

pub fn salvage(l: &Lent) -> u32 {
    lent!(
        l,
        lc_salvage,
        (l.given.capacity, l.file, l.given.file.len()),
        (l.stretches, l.given.stretches, l.begun.cast(), l.numbers.cast())
    )
}

/// Defines the searches across unknown stretches.
macro_rules! across {
    ($($name:ident = $call:ident),*) => {
        $(pub fn $name(l: &Lent) -> u32 {
            let Given { ref unknown, mask, place, .. } = l.given;
            lent!(l, $call, (l.store()), (l.unknown, unknown.len(), mask, place, l.number(0)))
        })*
    };
}

across!(
    next_certain = lc_next_certain,
    prev_certain = lc_prev_certain,
    next_possible = lc_next_possible,
    prev_possible = lc_prev_possible
);

pub fn mill_extent(l: &Lent) -> u32 {
    lent!(l, lc_mill_extent, (l.store()), (l.mill_place(0), l.mill_place(1), l.number(0)))
}

pub fn mill_get(l: &Lent) -> u32 {
    lent!(l, lc_mill_get, (l.store()), (l.given.grant, l.given.mill_place, l.number(0)))
}

pub fn mill_samples(l: &Lent) -> u32 {
    let Given { grant, mill_place, count, output, .. } = l.given;
    lent!(
        l,
        lc_mill_samples,
        (l.store()),
        (grant, mill_place, count, l.output, output, l.number(0))
    )
}

pub fn mill_summary(l: &Lent) -> u32 {
    let Given { grant, mill_place, mill_end, .. } = l.given;
    lent!(l, lc_mill_summary, (l.store()), (grant, mill_place, mill_end, l.output.cast()))
}

pub fn mill_next_change(l: &Lent) -> u32 {
    let Given { grant, mask, mill_place, .. } = l.given;
    lent!(l, lc_mill_next_change, (l.store()), (grant, mask, mill_place, l.mill_place(0), l.read))
}

pub fn mill_prev_change(l: &Lent) -> u32 {
    let Given { grant, mask, mill_place, .. } = l.given;
    lent!(l, lc_mill_prev_change, (l.store()), (grant, mask, mill_place, l.mill_place(0), l.read))
}

pub fn mill_burst_at(l: &Lent) -> u32 {
    let Given { grant, mask, mill_place, max_gap, .. } = l.given;
    lent!(
        l,
        lc_mill_burst_at,
        (l.store()),
        (
            grant,
            mask,
            mill_place,
            max_gap,
            1,
            1,
            l.mill_place(0),
            l.mill_place(1),
            l.numbers.cast(),
            l.read
        )
    )
}

pub fn mill_encoder(l: &Lent) -> u32 {
    let Given { grant, lines: [a, b], .. } = l.given;
    lent!(l, lc_mill_encoder, (l.store()), (grant, a, b, l.mill_place(0), l.numbers.cast()))
}

pub fn mill_render(l: &Lent) -> u32 {
    let Given { grant, start, spp, width, output, .. } = l.given;
    lent!(l, lc_mill_render, (l.store()), (grant, start, spp, width, l.output, output))
}

pub fn feeder_start(l: &Lent) -> u32 {
    let Given { channels, capacity, limit, seconds, wish, rate, .. } = l.given;
    lent!(
        l,
        lc_feeder_start,
        (channels, capacity, limit, l.terms, l.given.terms.len(), seconds, wish, rate),
        (l.ring, l.given.ring.len(), l.begun, l.number(0))
    )
}

pub fn push(l: &Lent) -> u32 {
    lent!(l, lc_push, (l.record), (l.ring, l.given.ring.len(), l.bytes, l.given.bytes.len()))
}

/// The sum of its two places, which are numbers of this function's own.
pub fn raw(l: &Lent) -> u32 {
    let (mut from, mut to) = (77, 77);
    lent!(l, lc_raw, (l.store()), (0, &mut from, &mut to));
    u32::try_from(from + to).unwrap_or(u32::MAX)
}
