//! What each row refuses.

use crate::calls::{record, recorder};
use crate::given::{Given, CAPACITY, LEN, MARK};
use crate::plain::file::seal;
use capture::BLOCK;

const MOST_SAMPLES: usize = 67_108_864;

/// A row's number, and what makes it refuse.
pub type Row = (u32, &'static str, fn(&mut Given));

fn shorten<T>(lent: &mut Vec<T>) {
    lent.pop();
}

pub const STORE: &[Row] = &[
    (1, "unit 0", |g| g.record[record::UNIT] = 0),
    (1, "unit 3", |g| g.record[record::UNIT] = 3),
    (1, "capacity 0", |g| (g.record[record::CAPACITY], g.record[record::LEN]) = (0, 0)),
    (1, "a capacity above the most", |g| g.record[record::CAPACITY] = MOST_SAMPLES + 1),
    (1, "len above the capacity", |g| g.record[record::LEN] = CAPACITY + 1),
    (1, "a mark past len", |g| (g.record[record::MARKED], g.record[record::MARK]) = (1, LEN + 1)),
    (1, "a record of the greatest numbers", |g| g.record = [usize::MAX; 17]),
];

pub const MEMORY: &[Row] = &[
    (2, "samples too short", |g| shorten(&mut g.samples)),
    (2, "no samples", |g| g.samples.clear()),
    (2, "level 1 too short", |g| shorten(&mut g.levels[0])),
    (2, "level 2 too short", |g| shorten(&mut g.levels[1])),
    (2, "level 3 too short", |g| shorten(&mut g.levels[2])),
    (2, "level 4 too short", |g| shorten(&mut g.levels[3])),
    (2, "no level 4", |g| g.levels[3].clear()),
];

pub const RECORDER: &[Row] = &[
    (1, "limit above the capacity", |g| g.record[recorder::LIMIT] = CAPACITY + 1),
    (1, "pre at the capacity", |g| g.record[recorder::PRE] = CAPACITY),
    (1, "more kept than pre", |g| g.record[recorder::KEPT] = 9),
    (1, "a place past the ring", |g| g.record[recorder::RING_PLACE] = 8),
    (1, "len above the limit", |g| {
        (g.record[record::LEN], g.record[recorder::LIMIT]) = (LEN, LEN - 1)
    }),
    (2, "a ring too short", |g| shorten(&mut g.ring)),
    (2, "no ring", |g| g.ring.clear()),
];

/// Of an append, and of a push that stores.
pub const FULL: &[Row] = &[
    (8, "more than fits", |g| g.bytes = vec![0; 2 * (CAPACITY - LEN + 1)]),
    (8, "a few samples that do not fit", |g| {
        (g.record[record::LEN], g.record[record::MARK]) = (CAPACITY - 1, 0)
    }),
];

/// Of a push that fires.
pub const KEPT_FULL: &[Row] = &[(8, "more than fits with what was kept", |g| {
    g.record[recorder::KEPT] = 8;
    g.bytes = vec![0; 2 * (CAPACITY - LEN - 7)];
})];

pub const CHANNELS: &[Row] = &[
    (1, "capacity 0", |g| g.capacity = 0),
    (1, "a capacity above the most", |g| g.capacity = MOST_SAMPLES + 1),
];

pub const SETTINGS: &[Row] = &[
    (3, "line 16", |g| g.terms[0] = 16),
    (3, "condition 5", |g| g.terms[3] = 5),
    (3, "an odd count of bytes", |g| g.terms.push(3)),
    (3, "one byte", |g| g.terms = vec![0]),
    (4, "limit above the capacity", |g| g.limit = CAPACITY + 1),
    (5, "a fraction of no limit", |g| g.limit = 0),
    (5, "seconds beside a limit", |g| g.seconds = true),
    (6, "a fraction that is no number", |g| g.wish = f64::NAN),
    (6, "seconds that are no number", |g| (g.limit, g.seconds, g.wish) = (0, true, f64::NAN)),
    (6, "a rate above the most", |g| (g.limit, g.seconds, g.rate) = (0, true, 1_000_000_001)),
    (7, "the capacity kept before the trigger", |g| (g.limit, g.seconds) = (0, true)),
    (7, "a ring too short", |g| shorten(&mut g.ring)),
];

pub const PLACE: &[Row] =
    &[(9, "the end", |g| g.place = LEN), (9, "the greatest place", |g| g.place = usize::MAX)];

pub const OUTPUT: &[Row] = &[
    (11, "output too short for the samples", |g| g.output = 7),
    (11, "no output", |g| g.output = 0),
];

pub const VIEW: &[Row] = &[
    (10, "a start that is no number", |g| g.start = f64::NAN),
    (10, "an infinite start", |g| g.start = f64::NEG_INFINITY),
    (10, "samples per pixel that are no number", |g| g.spp = f64::NAN),
    (10, "infinite samples per pixel", |g| g.spp = f64::INFINITY),
    (11, "more pixels than the most", |g| g.width = 65_537),
    (11, "output too short for the pixels", |g| g.output = 15),
];

pub const GRANT: &[Row] = &[(12, "a mask beyond the grant", |g| g.mask = 0b100)];

pub const ENCODER: &[Row] = &[
    (14, "equal lines", |g| g.lines = [1, 1]),
    (14, "equal lines beyond the grant", |g| g.lines = [2, 2]),
    (14, "line 16 as A", |g| g.lines = [16, 1]),
    (14, "line 16 as B", |g| g.lines = [0, 16]),
    (14, "line 16 beside one beyond the grant", |g| g.lines = [16, 2]),
    (14, "a line beyond all bits of a number", |g| g.lines = [64, 1]),
    (14, "the greatest line", |g| g.lines = [0, usize::MAX]),
];

pub const ENCODER_GRANT: &[Row] = &[
    (12, "line A beyond the grant", |g| g.lines = [2, 1]),
    (12, "line B beyond the grant", |g| g.lines = [0, 2]),
    (12, "line 15 beyond the grant", |g| g.lines = [15, 1]),
    (12, "no line granted", |g| g.grant = 0),
];

pub const BEFORE: &[Row] = &[
    (13, "a place before the first sample", |g| g.mill_place = -1 - MARK as i64),
    (13, "the least place", |g| g.mill_place = i64::MIN),
];

pub const END_BEFORE: &[Row] =
    &[(13, "an end before the first sample", |g| g.mill_end = -1 - MARK as i64)];

pub const MILL_PLACE: &[Row] = &[
    (9, "the end", |g| g.mill_place = (LEN - MARK) as i64),
    (9, "the greatest place", |g| g.mill_place = i64::MAX),
];

pub const FILE_OUTPUT: &[Row] = &[
    (15, "output too short for the file", |g| g.file_room = g.file.len() - 1),
    (15, "no output for the file", |g| g.file_room = 0),
];

/// Changes a byte of the given file and makes the checks anew, so that it is another field that refuses.
fn put(g: &mut Given, place: usize, byte: u8) {
    g.file[place] = byte;
    g.file.chunks_exact_mut(BLOCK).for_each(seal);
}

/// A file's beginning that no capture has, by the number with which a call refuses it.
const fn block_0(row: u32) -> [Row; 13] {
    [
        (row, "no file", |g| g.file.clear()),
        (row, "a file shorter than a block", |g| g.file.truncate(BLOCK - 1)),
        (row, "a check that is not block 0's", |g| g.file[0] ^= 1),
        (row, "a count that is not 18", |g| put(g, 2, 17)),
        (row, "a number that is not 0", |g| put(g, 7, 1)),
        (row, "no zeros at 8", |g| put(g, 8, 1)),
        (row, "no zeros behind the payload", |g| put(g, 30, 1)),
        (row, "unit 0 in the file", |g| put(g, 12, 0)),
        (row, "unit 3 in the file", |g| put(g, 12, 3)),
        (row, "flag 2", |g| put(g, 13, 2)),
        (row, "a mark without its flag", |g| put(g, 13, 0)),
        (row, "a len above the most", |g| put(g, 21, 1)),
        (row, "a mark past len in the file", |g| put(g, 22, LEN as u8 + 1)),
    ]
}

/// Of what block 0 says, and of a read.
pub const BLOCK_0: &[Row] = &block_0(16);

/// Of a salvage.
pub const SALVAGE_BLOCK_0: &[Row] = &block_0(17);

/// What is behind the beginning.
pub const BLOCKS: &[Row] = &[
    (16, "a block missing", |g| g.file.truncate(BLOCK)),
    (16, "a byte missing", |g| shorten(&mut g.file)),
    (16, "a byte too many", |g| g.file.push(0)),
    (16, "a block too many", |g| g.file.extend([0; BLOCK])),
    (16, "a check that is not block 1's", |g| g.file[BLOCK + 1] ^= 1),
    (16, "a changed sample", |g| g.file[BLOCK + 12] ^= 1),
    (16, "another count in block 1", |g| put(g, BLOCK + 2, 82)),
    (16, "another number in block 1", |g| put(g, BLOCK + 4, 0)),
    (16, "no zeros at 11 in block 1", |g| put(g, BLOCK + 11, 1)),
    (16, "no zeros behind the samples", |g| put(g, BLOCK + 92, 1)),
];

/// Of a read and of a salvage: in place of 2.
pub const FILE_ROOM: &[Row] = &[
    (15, "a capacity below the file's len", |g| g.capacity = LEN - 1),
    (15, "a capacity that the memory is short for", |g| g.capacity = CAPACITY + 1),
    (15, "the greatest capacity", |g| g.capacity = MOST_SAMPLES),
    (15, "samples too short", |g| shorten(&mut g.samples)),
    (15, "no samples", |g| g.samples.clear()),
    (15, "level 1 too short", |g| shorten(&mut g.levels[0])),
    (15, "level 2 too short", |g| shorten(&mut g.levels[1])),
    (15, "level 3 too short", |g| shorten(&mut g.levels[2])),
    (15, "level 4 too short", |g| shorten(&mut g.levels[3])),
    (15, "no level 4", |g| g.levels[3].clear()),
];

/// Of a salvage of which block 1 is bad.
pub const LIST: &[Row] = &[
    (15, "no list for a stretch", |g| (g.file[BLOCK], g.stretches) = (g.file[BLOCK] ^ 1, 0)),
    (15, "a list of one number for a stretch", |g| {
        g.file.truncate(BLOCK);
        g.stretches = 1;
    }),
];

/// Of a list of unknown stretches. That which is given is taken.
pub const STRETCHES: &[Row] = &[
    (18, "one number", |g| g.unknown = vec![10]),
    (18, "an odd count of numbers", |g| shorten(&mut g.unknown)),
    (18, "a number behind the stretches", |g| g.unknown.push(0)),
    (18, "a stretch of no samples", |g| g.unknown = vec![10, 0]),
    (18, "a second one of no samples", |g| g.unknown[3] = 0),
    (18, "one of no samples at the end", |g| g.unknown = vec![LEN, 0]),
    (18, "a stretch that reaches past len", |g| g.unknown = vec![0, LEN + 1]),
    (18, "one that reaches past len by its last sample", |g| g.unknown[5] += 1),
    (18, "one that begins at len", |g| g.unknown = vec![LEN, 1]),
    (18, "one that ends at 2^64", |g| g.unknown = vec![1, usize::MAX]),
    (18, "one that ends below len, modulo 2^64", |g| g.unknown = vec![11, usize::MAX]),
    (18, "the greatest place", |g| g.unknown = vec![usize::MAX, 1]),
    (18, "the greatest numbers", |g| g.unknown = vec![usize::MAX; 2]),
    (18, "two that touch", |g| g.unknown[2] = 13),
    (18, "two that overlap", |g| g.unknown[2] = 12),
    (18, "one twice", |g| g.unknown = vec![10, 3, 10, 3]),
    (18, "two out of order", |g| g.unknown = vec![14, 2, 10, 3]),
    (18, "two out of order that touch", |g| g.unknown = vec![13, 2, 10, 3]),
];
