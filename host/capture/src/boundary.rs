//! The calls of include/logic_core.h made safe: slices for pointers with lengths, results for codes.
//!
//! All `unsafe` of this crate is here and in `mode`. The library checks every number that it gets. What a caller owes
//! it are pointers that are valid for their lengths, aligned and not null, that what a call writes overlaps nothing
//! else that it gets, and the default floating-point mode where a call takes a double. Vectors and arrays give such
//! pointers, empty ones too, the borrows in each signature keep them apart, and [`DefaultMode`] sets the mode.

use crate::memory::Memory;
use crate::mode::DefaultMode;
use crate::{Burst, Counted, Encoder, Extent, Lines, MillNode, Node, Refusal, Said, Stretch};

/// The record of a capture; [`record`] says which number is which.
pub type Record = [usize; 5];

/// The record of a recorder: that of its capture, then its own numbers, [`recorder`].
pub type RecorderRecord = [usize; 17];

/// A refusal, or whether there is an answer.
type Answered = Result<bool, Refusal>;

macro_rules! exports {
    ($(fn $name:ident($($parameter:ident: $type:ty),*) -> $result:ty;)*) => {
        extern "C" {
            $(fn $name($($parameter: $type),*) -> $result;)*
        }
    };
}

include!("../../../include/logic_core.rs");

/// Calls with the pointers and lengths of lent memory between the arguments of its own.
macro_rules! call {
    ($name:ident, ($($before:expr),*), $memory:ident.$pointer:ident, ($($after:expr),*)) => {{
        let Memory { samples, levels: [l1, l2, l3, l4] } = $memory;
        // SAFETY: the pointers of lent memory are a vector's own, with its length. The other arguments are numbers,
        // and pointers and lengths of the slices and arrays that the calling function borrows or owns.
        unsafe {
            $name(
                $($before,)*
                samples.$pointer(), samples.len(),
                l1.$pointer(), l1.len(),
                l2.$pointer(), l2.len(),
                l3.$pointer(), l3.len(),
                l4.$pointer(), l4.len(),
                $($after,)*
            )
        }
    }};
}

/// What a code says: 0 yes, 100 no, else the number of a refusal.
fn answered(code: u32) -> Answered {
    match code {
        0 => Ok(true),
        100 => Ok(false),
        _ => match Refusal::of_number(code) {
            Some(refusal) => Err(refusal),
            None => unreachable!("the header gives no code {code}"),
        },
    }
}

/// What a search says: what it wrote of its find, if it found one, and the nodes that it read in any case.
fn counted<T>(code: u32, written: T, read: usize) -> Result<Counted<T>, Refusal> {
    answered(code).map(|found| Counted { found: found.then_some(written), read })
}

pub fn needs(channels: usize, capacity: usize) -> Result<[usize; 5], Refusal> {
    let mut sizes = [0; 5];
    // SAFETY: the pointer is to five numbers, as many as are written.
    let code = unsafe { lc_needs(channels, capacity, &mut sizes) };
    answered(code).map(|_| sizes)
}

pub fn start(channels: usize, capacity: usize, memory: &Memory) -> Result<Record, Refusal> {
    let mut record = [0; 5];
    answered(call!(lc_start, (channels, capacity), memory.as_ptr, (&mut record))).map(|_| record)
}

pub fn append(record: &mut Record, memory: &mut Memory, bytes: &[u8]) -> Result<(), Refusal> {
    answered(call!(lc_append, (record), memory.as_mut_ptr, (bytes.as_ptr(), bytes.len())))
        .map(|_| ())
}

pub fn get(record: &Record, memory: &Memory, i: usize) -> Result<Lines, Refusal> {
    let mut value = 0;
    answered(call!(lc_get, (record), memory.as_ptr, (i, &mut value))).map(|_| value)
}

pub fn samples(
    record: &Record,
    memory: &Memory,
    start: usize,
    count: usize,
    output: &mut [Lines],
) -> Result<usize, Refusal> {
    let (room, mut copied) = (output.len(), 0);
    let code = call!(
        lc_samples,
        (record),
        memory.as_ptr,
        (start, count, output.as_mut_ptr(), room, &mut copied)
    );
    answered(code).map(|_| copied)
}

pub fn raw<'a>(record: &Record, memory: &'a Memory, chunk: usize) -> &'a [u8] {
    let (mut from, mut to) = (0, 0);
    call!(lc_raw, (record), memory.as_ptr, (chunk, &mut from, &mut to));
    &memory.samples[from..to]
}

/// None where the levels are whole, else the level and the number of the first wrong node.
pub fn whole(record: &Record, memory: &Memory) -> Result<Option<(usize, usize)>, Refusal> {
    let (mut level, mut number) = (0, 0);
    let whole = answered(call!(lc_whole, (record), memory.as_ptr, (&mut level, &mut number)))?;
    Ok((!whole).then_some((level, number)))
}

pub fn summary(
    record: &Record,
    memory: &Memory,
    a: usize,
    b: usize,
) -> Result<Option<Node>, Refusal> {
    let (mut node, mut count) = ([0; 3], 0);
    let code = call!(lc_summary, (record), memory.as_ptr, (a, b, &mut node, &mut count));
    let found = answered(code)?;
    Ok(found.then_some(Node {
        first: node[out::NODE_FIRST],
        last: node[out::NODE_LAST],
        toggles: node[out::NODE_TOGGLES],
        count,
    }))
}

pub fn density(record: &Record, memory: &Memory, a: usize, b: usize) -> Result<u32, Refusal> {
    let mut count = 0;
    answered(call!(lc_density, (record), memory.as_ptr, (a, b, &mut count))).map(|_| count)
}

/// Defines searches that write a place, and the nodes read, behind the arguments of their own.
macro_rules! searches {
    ($(fn $name:ident($($argument:ident: $a:ty),*) -> $place:ty = $call:ident;)*) => {
        $(pub fn $name(
            record: &Record,
            memory: &Memory,
            $($argument: $a),*
        ) -> Result<Counted<$place>, Refusal> {
            let (mut place, mut read) = (0, 0);
            let code = call!(
                $call,
                (record),
                memory.as_ptr,
                ($($argument,)* &mut place, &mut read)
            );
            counted(code, place, read)
        })*
    };
}

searches! {
    fn next_change(mask: Lines, from: usize) -> usize = lc_next_change;
    fn prev_change(mask: Lines, from: usize) -> usize = lc_prev_change;
    fn mill_next_change(grant: Lines, mask: Lines, from: i64) -> i64 = lc_mill_next_change;
    fn mill_prev_change(grant: Lines, mask: Lines, from: i64) -> i64 = lc_mill_prev_change;
}

pub fn burst_at(
    record: &Record,
    memory: &Memory,
    mask: Lines,
    sample: usize,
    [max_gap, tolerance, budget]: [usize; 3],
) -> Result<Counted<Burst>, Refusal> {
    let (mut ends, mut read) = ([0; 4], 0);
    let code = call!(
        lc_burst_at,
        (record),
        memory.as_ptr,
        (mask, sample, max_gap, tolerance, budget, &mut ends, &mut read)
    );
    let burst = Burst {
        first: ends[out::BURST_FIRST],
        last: ends[out::BURST_LAST],
        jumps_at_end: ends[out::BURST_JUMPS_END],
        jumps_at_start: ends[out::BURST_JUMPS_START],
    };
    counted(code, burst, read)
}

/// What an encoder's call says, with what it wrote.
fn turned(code: u32, position: i64, counts: [usize; 3]) -> Result<Encoder, Refusal> {
    answered(code).map(|_| Encoder {
        position,
        forward: counts[out::ENCODER_FORWARD],
        backward: counts[out::ENCODER_BACKWARD],
        skipped: counts[out::ENCODER_SKIPPED],
    })
}

pub fn encoder(record: &Record, memory: &Memory, a: usize, b: usize) -> Result<Encoder, Refusal> {
    let (mut position, mut counts) = (0, [0; 3]);
    let code = call!(lc_encoder, (record), memory.as_ptr, (a, b, &mut position, &mut counts));
    turned(code, position, counts)
}

/// Two numbers of the output for each pixel.
pub fn render(
    record: &Record,
    memory: &Memory,
    start: f64,
    spp: f64,
    width: usize,
    output: &mut [Lines],
) -> Result<(), Refusal> {
    let room = output.len();
    let _mode = DefaultMode::set();
    let code =
        call!(lc_render, (record), memory.as_ptr, (start, spp, width, output.as_mut_ptr(), room));
    answered(code).map(|_| ())
}

pub fn file_len(record: &Record) -> Result<usize, Refusal> {
    let mut len = 0;
    // SAFETY: the pointers are to five numbers and to one, as many as are read and written.
    let code = unsafe { lc_file_len(record, &mut len) };
    answered(code).map(|_| len)
}

pub fn file_says(file: &[u8]) -> Result<Said, Refusal> {
    let mut said = [0; 4];
    // SAFETY: the pointers are a slice's own, with its length, and to four numbers, as many as are written.
    let code = unsafe { lc_file_says(file.as_ptr(), file.len(), &mut said) };
    answered(code).map(|_| Said {
        unit: said[out::SAID_UNIT],
        len: said[out::SAID_LEN],
        mark: (said[out::SAID_MARKED] != 0).then_some(said[out::SAID_MARK]),
    })
}

/// The length of the file at the output's start.
pub fn write(record: &Record, memory: &Memory, output: &mut [u8]) -> Result<usize, Refusal> {
    let (room, mut len) = (output.len(), 0);
    let code = call!(lc_write, (record), memory.as_ptr, (output.as_mut_ptr(), room, &mut len));
    answered(code).map(|_| len)
}

pub fn read(capacity: usize, file: &[u8], memory: &mut Memory) -> Result<Record, Refusal> {
    let mut record = [0; 5];
    let code =
        call!(lc_read, (capacity, file.as_ptr(), file.len()), memory.as_mut_ptr, (&mut record));
    answered(code).map(|_| record)
}

/// The record of what was salvaged, with the number of stretches, which stand at the list's start, and that of samples
/// replaced.
pub fn salvage(
    capacity: usize,
    file: &[u8],
    memory: &mut Memory,
    stretches: &mut [usize],
) -> Result<(Record, usize, usize), Refusal> {
    let (room, mut record, mut counts) = (stretches.len(), [0; 5], [0; 2]);
    let code = call!(
        lc_salvage,
        (capacity, file.as_ptr(), file.len()),
        memory.as_mut_ptr,
        (stretches.as_mut_ptr(), room, &mut record, &mut counts)
    );
    answered(code)
        .map(|_| (record, counts[out::SALVAGED_STRETCHES], counts[out::SALVAGED_REPLACED]))
}

/// Defines searches across unknown stretches, which write a place alone.
macro_rules! searches_across {
    ($(fn $name:ident = $call:ident;)*) => {
        $(pub fn $name(
            record: &Record,
            memory: &Memory,
            stretches: &[Stretch],
            mask: Lines,
            from: usize,
        ) -> Result<Option<usize>, Refusal> {
            let mut place = 0;
            // A stretch is two numbers in memory too, first and count.
            let code = call!(
                $call,
                (record),
                memory.as_ptr,
                (stretches.as_ptr().cast(), 2 * stretches.len(), mask, from, &mut place)
            );
            answered(code).map(|found| found.then_some(place))
        })*
    };
}

searches_across! {
    fn next_certain = lc_next_certain;
    fn prev_certain = lc_prev_certain;
    fn next_possible = lc_next_possible;
    fn prev_possible = lc_prev_possible;
}

pub fn mill_extent(record: &Record, memory: &Memory) -> Result<Extent, Refusal> {
    let (mut first, mut end, mut marked) = (0, 0, 0);
    let code = call!(lc_mill_extent, (record), memory.as_ptr, (&mut first, &mut end, &mut marked));
    answered(code).map(|_| Extent { first, end, marked: marked != 0 })
}

pub fn mill_get(
    record: &Record,
    memory: &Memory,
    grant: Lines,
    place: i64,
) -> Result<Lines, Refusal> {
    let mut value = 0;
    let code = call!(lc_mill_get, (record), memory.as_ptr, (grant, place, &mut value));
    answered(code).map(|_| value)
}

pub fn mill_samples(
    record: &Record,
    memory: &Memory,
    grant: Lines,
    start: i64,
    count: usize,
    output: &mut [Lines],
) -> Result<usize, Refusal> {
    let (room, mut copied) = (output.len(), 0);
    let code = call!(
        lc_mill_samples,
        (record),
        memory.as_ptr,
        (grant, start, count, output.as_mut_ptr(), room, &mut copied)
    );
    answered(code).map(|_| copied)
}

pub fn mill_summary(
    record: &Record,
    memory: &Memory,
    grant: Lines,
    a: i64,
    b: i64,
) -> Result<Option<MillNode>, Refusal> {
    let mut node = [0; 3];
    let code = call!(lc_mill_summary, (record), memory.as_ptr, (grant, a, b, &mut node));
    let found = answered(code)?;
    Ok(found.then_some(MillNode {
        first: node[out::NODE_FIRST],
        last: node[out::NODE_LAST],
        toggles: node[out::NODE_TOGGLES],
    }))
}

pub fn mill_burst_at(
    record: &Record,
    memory: &Memory,
    grant: Lines,
    mask: Lines,
    sample: i64,
    [max_gap, tolerance, budget]: [usize; 3],
) -> Result<Counted<Burst<i64>>, Refusal> {
    let (mut first, mut last, mut jumps, mut read) = (0, 0, [0; 2], 0);
    let code = call!(
        lc_mill_burst_at,
        (record),
        memory.as_ptr,
        (
            grant, mask, sample, max_gap, tolerance, budget, &mut first, &mut last, &mut jumps,
            &mut read
        )
    );
    let (jumps_at_end, jumps_at_start) = (jumps[out::MILL_JUMPS_END], jumps[out::MILL_JUMPS_START]);
    counted(code, Burst { first, last, jumps_at_end, jumps_at_start }, read)
}

pub fn mill_encoder(
    record: &Record,
    memory: &Memory,
    grant: Lines,
    a: usize,
    b: usize,
) -> Result<Encoder, Refusal> {
    let (mut position, mut counts) = (0, [0; 3]);
    let code =
        call!(lc_mill_encoder, (record), memory.as_ptr, (grant, a, b, &mut position, &mut counts));
    turned(code, position, counts)
}

/// Two numbers of the output for each pixel.
pub fn mill_render(
    record: &Record,
    memory: &Memory,
    grant: Lines,
    [start, spp]: [f64; 2],
    width: usize,
    output: &mut [Lines],
) -> Result<(), Refusal> {
    let room = output.len();
    let _mode = DefaultMode::set();
    let code = call!(
        lc_mill_render,
        (record),
        memory.as_ptr,
        (grant, start, spp, width, output.as_mut_ptr(), room)
    );
    answered(code).map(|_| ())
}

/// What a recorder is started with; two bytes a term, its line and its condition.
pub struct RecorderStart<'a> {
    pub channels: usize,
    pub capacity: usize,
    pub limit: usize,
    pub terms: &'a [u8],
    pub seconds: bool,
    pub wish: f64,
    pub rate: usize,
}

/// The recorder's record, and whether the samples kept before the trigger were cut.
pub fn recorder_start(
    asked: RecorderStart,
    memory: &Memory,
    ring: &[u8],
) -> Result<(RecorderRecord, bool), Refusal> {
    let RecorderStart { channels, capacity, limit, terms, seconds, wish, rate } = asked;
    let (mut record, mut cut) = ([0; 17], 0);
    let _mode = DefaultMode::set();
    let code = call!(
        lc_feeder_start,
        (channels, capacity, limit, terms.as_ptr(), terms.len(), seconds, wish, rate),
        memory.as_ptr,
        (ring.as_ptr(), ring.len(), &mut record, &mut cut)
    );
    answered(code).map(|_| (record, cut != 0))
}

/// Whether the recording goes on.
pub fn push(
    record: &mut RecorderRecord,
    memory: &mut Memory,
    ring: &mut [u8],
    bytes: &[u8],
) -> Answered {
    let room = ring.len();
    let code = call!(
        lc_push,
        (record),
        memory.as_mut_ptr,
        (ring.as_mut_ptr(), room, bytes.as_ptr(), bytes.len())
    );
    answered(code)
}
