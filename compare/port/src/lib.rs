//! The port behind its C boundary, include/logic_core.h, made safe: slices for pointers and lengths.

mod calls;

/// Which number is which: of a record, of a recorder's behind its capture's, and behind out pointers.
pub use calls::{out, record, recorder};

/// Whether the static library is there. Without it no function here may be called.
pub const LINKED: bool = cfg!(linked);

/// What a call says when it finds nothing, of levels that are not whole, and of a recording that is complete.
pub const NONE: u32 = 100;

/// Its numbers have names, [`record`].
pub type Record = [usize; 5];

/// A recorder's: its capture's five, then its own, [`recorder`]
pub type Feeder = [usize; 17];

/// Lent memory: sample bytes, and the numbers of the levels 1 to 4.
#[derive(Clone, Copy)]
pub struct Lent<'a> {
    pub samples: &'a [u8],
    pub levels: [&'a [u16]; 4],
}

pub struct LentMut<'a> {
    pub samples: &'a mut [u8],
    pub levels: [&'a mut [u16]; 4],
}

// Inlined, so that a caller is charged for the call alone.
#[inline]
pub fn needs(channels: usize, capacity: usize, sizes: &mut [usize; 5]) -> u32 {
    unsafe { calls::lc_needs(channels, capacity, sizes) }
}

/// Calls with the lent memory's pointers and lengths between the arguments before and after them.
macro_rules! lent {
    ($call:ident, ($($before:expr),*), $lent:expr, $pointer:ident, ($($after:expr),*)) => {{
        let [l1, l2, l3, l4] = $lent.levels;
        unsafe {
            calls::$call(
                $($before,)*
                $lent.samples.$pointer(), $lent.samples.len(),
                l1.$pointer(), l1.len(), l2.$pointer(), l2.len(),
                l3.$pointer(), l3.len(), l4.$pointer(), l4.len(),
                $($after,)*
            )
        }
    }};
}

pub mod file;
pub mod mill;
pub mod unknown;

#[inline]
pub fn start(channels: usize, capacity: usize, lent: Lent, record: &mut Record) -> u32 {
    lent!(lc_start, (channels, capacity), lent, as_ptr, (record))
}

/// What a recorder is started with. Terms are two bytes each: line and condition.
#[derive(Clone, Copy)]
pub struct Settings<'a> {
    pub channels: usize,
    pub capacity: usize,
    pub limit: usize,
    pub terms: &'a [u8],
    pub seconds: bool,
    pub wish: f64,
    pub rate: usize,
}

#[inline]
pub fn feeder_start(
    settings: Settings,
    lent: Lent,
    ring: &[u8],
    feeder: &mut Feeder,
    cut: &mut usize,
) -> u32 {
    let Settings { channels, capacity, limit, terms, seconds, wish, rate } = settings;
    lent!(
        lc_feeder_start,
        (channels, capacity, limit, terms.as_ptr(), terms.len(), seconds, wish, rate),
        lent,
        as_ptr,
        (ring.as_ptr(), ring.len(), feeder, cut)
    )
}

#[inline]
pub fn push(feeder: &mut Feeder, lent: LentMut, ring: &mut [u8], bytes: &[u8]) -> u32 {
    lent!(
        lc_push,
        (feeder),
        lent,
        as_mut_ptr,
        (ring.as_mut_ptr(), ring.len(), bytes.as_ptr(), bytes.len())
    )
}

#[inline]
pub fn append(record: &mut Record, lent: LentMut, bytes: &[u8]) -> u32 {
    lent!(lc_append, (record), lent, as_mut_ptr, (bytes.as_ptr(), bytes.len()))
}

#[inline]
pub fn get(record: &Record, lent: Lent, i: usize, value: &mut u16) -> u32 {
    lent!(lc_get, (record), lent, as_ptr, (i, value))
}

#[inline]
pub fn samples(
    record: &Record,
    lent: Lent,
    start: usize,
    count: usize,
    output: &mut [u16],
    copied: &mut usize,
) -> u32 {
    let (to, room) = (output.as_mut_ptr(), output.len());
    lent!(lc_samples, (record), lent, as_ptr, (start, count, to, room, copied))
}

/// The chunk's stored bytes. The two places are checked before they cut.
#[inline]
pub fn raw<'a>(record: &Record, lent: Lent<'a>, chunk: usize) -> &'a [u8] {
    let (mut from, mut to) = (usize::MAX, usize::MAX);
    lent!(lc_raw, (record), lent, as_ptr, (chunk, &mut from, &mut to));
    &lent.samples[from..to]
}

#[inline]
pub fn whole(record: &Record, lent: Lent, level: &mut usize, number: &mut usize) -> u32 {
    lent!(lc_whole, (record), lent, as_ptr, (level, number))
}

#[inline]
pub fn summary(
    record: &Record,
    lent: Lent,
    a: usize,
    b: usize,
    node: &mut [u16; 3],
    count: &mut u32,
) -> u32 {
    lent!(lc_summary, (record), lent, as_ptr, (a, b, node, count))
}

#[inline]
pub fn density(record: &Record, lent: Lent, a: usize, b: usize, count: &mut u32) -> u32 {
    lent!(lc_density, (record), lent, as_ptr, (a, b, count))
}

/// An encoder replayed from lines a and b. The counts have names, [`out`].
#[inline]
pub fn encoder(
    record: &Record,
    lent: Lent,
    a: usize,
    b: usize,
    position: &mut i64,
    counts: &mut [usize; 3],
) -> u32 {
    lent!(lc_encoder, (record), lent, as_ptr, (a, b, position, counts))
}

#[inline]
pub fn next_change(
    record: &Record,
    lent: Lent,
    mask: u16,
    from: usize,
    place: &mut usize,
    read: &mut usize,
) -> u32 {
    lent!(lc_next_change, (record), lent, as_ptr, (mask, from, place, read))
}

#[inline]
pub fn prev_change(
    record: &Record,
    lent: Lent,
    mask: u16,
    from: usize,
    place: &mut usize,
    read: &mut usize,
) -> u32 {
    lent!(lc_prev_change, (record), lent, as_ptr, (mask, from, place, read))
}

/// What a burst is asked by.
#[derive(Clone, Copy)]
pub struct Asked {
    pub mask: u16,
    pub sample: usize,
    pub max_gap: usize,
    pub tolerance: usize,
    pub budget: usize,
}

#[inline]
pub fn burst_at(
    record: &Record,
    lent: Lent,
    asked: Asked,
    burst: &mut [usize; 4],
    read: &mut usize,
) -> u32 {
    let Asked { mask, sample, max_gap, tolerance, budget } = asked;
    lent!(
        lc_burst_at,
        (record),
        lent,
        as_ptr,
        (mask, sample, max_gap, tolerance, budget, burst, read)
    )
}

#[inline]
pub fn render(
    record: &Record,
    lent: Lent,
    start: f64,
    spp: f64,
    width: usize,
    output: &mut [u16],
) -> u32 {
    let (to, room) = (output.as_mut_ptr(), output.len());
    lent!(lc_render, (record), lent, as_ptr, (start, spp, width, to, room))
}
