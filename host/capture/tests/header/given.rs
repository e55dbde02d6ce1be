//! What calls are given, and the pages in which it is lent.

use crate::calls::{record, recorder};
use crate::pages::Pages;
use crate::plain;

pub const CAPACITY: usize = 64;
pub const LEN: usize = 40;
pub const MARK: usize = 5;

/// What calls are given. As it begins, no row refuses any, and each finds what it looks for.
#[derive(Clone)]
pub struct Given {
    pub channels: usize,
    pub capacity: usize,
    pub limit: usize,
    pub terms: Vec<u8>,
    pub seconds: bool,
    pub wish: f64,
    pub rate: usize,
    /// A recorder's, of which the first five numbers are a capture's.
    pub record: [usize; 17],
    pub samples: Vec<u8>,
    pub levels: [Vec<u16>; 4],
    pub ring: Vec<u8>,
    pub bytes: Vec<u8>,
    /// The output's length.
    pub output: usize,
    pub count: usize,
    pub place: usize,
    /// Where a range ends that begins at the place.
    pub end: usize,
    pub mask: u16,
    pub max_gap: usize,
    pub start: f64,
    pub spp: f64,
    pub width: usize,
    /// The lines of an encoder.
    pub lines: [usize; 2],
    pub grant: u16,
    pub mill_place: i64,
    pub mill_end: i64,
    /// The capture's file.
    pub file: Vec<u8>,
    /// The length of the output for a file.
    pub file_room: usize,
    /// The length of the list of unknown stretches that a salvage gives, in numbers.
    pub stretches: usize,
    /// Such a list of the capture, for searches across it.
    pub unknown: Vec<usize>,
}

/// The numbers of a node.
pub const NODE: usize = 5;

/// The node of samples.
fn node(samples: &[u16]) -> [u16; NODE] {
    let toggles = samples.windows(2).fold(0, |toggles, pair| toggles | (pair[0] ^ pair[1]));
    let count = samples.windows(2).filter(|pair| pair[0] != pair[1]).count() as u16;
    [samples[0], samples[samples.len() - 1], toggles, count, 0]
}

impl Given {
    /// A capture in which line 0 changes at every place, line 1 at each fourth and line 2 never, and the recorder that has
    /// filled it, which waits no more and has no limit.
    pub fn new() -> Given {
        let run: Vec<u16> = (0..LEN as u16).map(|i| i % 2 + i / 4 % 2 * 2).collect();
        let mut samples: Vec<u8> = run.iter().flat_map(|sample| sample.to_le_bytes()).collect();
        samples.resize(2 * CAPACITY, 0);
        let levels = [32, 1024, 32_768, 1_048_576].map(|span| {
            let mut numbers: Vec<u16> = run.chunks(span).flat_map(node).collect();
            numbers.resize(NODE * CAPACITY.div_ceil(span), 0);
            numbers
        });
        let mut record = [0; 17];
        for (at, number) in [
            (record::UNIT, 2),
            (record::CAPACITY, CAPACITY),
            (record::LEN, LEN),
            (record::MARKED, 1),
            (record::MARK, MARK),
            (recorder::PRE, 8),
            (recorder::KNOWN, 1),
            (recorder::PREVIOUS, 3),
        ] {
            record[at] = number;
        }
        let file = plain::file::file(2, Some(MARK), &run);
        Given {
            channels: 16,
            capacity: CAPACITY,
            limit: 16,
            terms: vec![3, 0, 4, 2],
            seconds: false,
            wish: 0.5,
            rate: 1000,
            record,
            samples,
            levels,
            ring: vec![0; 16],
            bytes: vec![0, 0, 1, 0],
            output: 16,
            count: 8,
            place: 7,
            end: 20,
            mask: 0b11,
            max_gap: 5,
            start: 3.5,
            spp: 2.25,
            width: 8,
            lines: [0, 1],
            grant: 0b11,
            mill_place: 2,
            mill_end: 15,
            file_room: file.len() + 9,
            file,
            stretches: 4,
            // The first two are one place apart, and the last one ends with the capture.
            unknown: vec![10, 3, 14, 2, LEN - 9, 9],
        }
    }

    /// Nothing is stored, and there is no mark.
    pub fn empty(&mut self) {
        for at in [record::LEN, record::MARKED, record::MARK] {
            self.record[at] = 0;
        }
    }

    pub fn with(&self, change: fn(&mut Given)) -> Given {
        let mut given = self.clone();
        change(&mut given);
        given
    }
}

/// Where it is lent.
pub struct Lent {
    /// What a question has no call to write in.
    pub kept: Pages,
    /// Output, and what out pointers point at; a start's record is one.
    pub out: Pages,
    /// The count of nodes that a search has read.
    pub count: Pages,
    pub given: Given,
    pub terms: *const u8,
    pub record: *mut [usize; 17],
    pub samples: *mut u8,
    pub levels: [*mut u16; 4],
    pub ring: *mut u8,
    pub bytes: *const u8,
    pub file: *const u8,
    pub unknown: *const usize,
    pub begun: *mut [usize; 17],
    pub output: *mut u16,
    pub file_output: *mut u8,
    pub stretches: *mut usize,
    pub numbers: *mut [usize; 5],
    pub places: *mut [i64; 2],
    pub read: *mut usize,
}

impl Lent {
    pub fn new(given: Given) -> Lent {
        let (mut kept, mut out, mut count) = (Pages::new(), Pages::new(), Pages::new());
        Lent {
            terms: kept.put(&given.terms),
            record: kept.put(&[given.record]),
            samples: kept.put(&given.samples),
            levels: [0, 1, 2, 3].map(|level| kept.put(&given.levels[level])),
            ring: kept.put(&given.ring),
            bytes: kept.put(&given.bytes),
            file: kept.put(&given.file),
            unknown: kept.put(&given.unknown),
            begun: out.put(&[[77; 17]]),
            output: out.put(&vec![77; given.output]),
            file_output: out.put(&vec![77; given.file_room]),
            stretches: out.put(&vec![77; given.stretches]),
            numbers: out.put(&[[77; 5]]),
            places: out.put(&[[77; 2]]),
            read: count.put(&[77]),
            kept,
            out,
            count,
            given,
        }
    }

    /// The record of the capture.
    pub fn store(&self) -> *mut [usize; 5] {
        self.record.cast()
    }

    /// An out number.
    pub fn number<T>(&self, k: usize) -> *mut T {
        self.numbers.cast::<usize>().wrapping_add(k).cast()
    }

    /// An out place, as a mill counts.
    pub fn mill_place(&self, k: usize) -> *mut i64 {
        self.places.cast::<i64>().wrapping_add(k)
    }
}
