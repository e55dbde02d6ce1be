// The exports of logic_core, for Rust; logic_core.h says what each does. Made by host/declare, not to be edited.
// Who includes this defines `exports!` for it.

#[allow(dead_code)]
pub mod record {
    pub const UNIT: usize = 0;
    pub const CAPACITY: usize = 1;
    pub const LEN: usize = 2;
    pub const MARKED: usize = 3;
    pub const MARK: usize = 4;
}

#[allow(dead_code)]
pub mod recorder {
    pub const LIMIT: usize = 5;
    pub const PRE: usize = 6;
    pub const WAITS: usize = 7;
    pub const HIGH_LINES: usize = 8;
    pub const LOW_LINES: usize = 9;
    pub const RISING_LINES: usize = 10;
    pub const FALLING_LINES: usize = 11;
    pub const EDGE_LINES: usize = 12;
    pub const KNOWN: usize = 13;
    pub const PREVIOUS: usize = 14;
    pub const RING_PLACE: usize = 15;
    pub const KEPT: usize = 16;
}

#[allow(dead_code)]
pub mod out {
    pub const SIZE_SAMPLES: usize = 0;
    pub const SIZE_LEVEL_1: usize = 1;
    pub const SIZE_LEVEL_2: usize = 2;
    pub const SIZE_LEVEL_3: usize = 3;
    pub const SIZE_LEVEL_4: usize = 4;
    pub const NODE_FIRST: usize = 0;
    pub const NODE_LAST: usize = 1;
    pub const NODE_TOGGLES: usize = 2;
    pub const BURST_FIRST: usize = 0;
    pub const BURST_LAST: usize = 1;
    pub const BURST_JUMPS_END: usize = 2;
    pub const BURST_JUMPS_START: usize = 3;
    pub const ENCODER_FORWARD: usize = 0;
    pub const ENCODER_BACKWARD: usize = 1;
    pub const ENCODER_SKIPPED: usize = 2;
    pub const MILL_JUMPS_END: usize = 0;
    pub const MILL_JUMPS_START: usize = 1;
    pub const SAID_UNIT: usize = 0;
    pub const SAID_LEN: usize = 1;
    pub const SAID_MARKED: usize = 2;
    pub const SAID_MARK: usize = 3;
    pub const SALVAGED_STRETCHES: usize = 0;
    pub const SALVAGED_REPLACED: usize = 1;
}

exports! {
    fn lc_append(
        record: *mut [usize; 5], samples: *mut u8, samples_len: usize, l1: *mut u16, l1_len: usize,
        l2: *mut u16, l2_len: usize, l3: *mut u16, l3_len: usize, l4: *mut u16, l4_len: usize,
        bytes: *const u8, bytes_len: usize
    ) -> u32;
    fn lc_burst_at(
        record: *const [usize; 5], samples: *const u8, samples_len: usize,
        l1: *const u16, l1_len: usize, l2: *const u16, l2_len: usize,
        l3: *const u16, l3_len: usize, l4: *const u16, l4_len: usize, mask: u16, sample: usize,
        max_gap: usize, tolerance: usize, budget: usize, ends: *mut [usize; 4], read: *mut usize
    ) -> u32;
    fn lc_density(
        record: *const [usize; 5], samples: *const u8, samples_len: usize,
        l1: *const u16, l1_len: usize, l2: *const u16, l2_len: usize,
        l3: *const u16, l3_len: usize, l4: *const u16, l4_len: usize, a: usize, b: usize,
        count: *mut u32
    ) -> u32;
    fn lc_encoder(
        record: *const [usize; 5], samples: *const u8, samples_len: usize,
        l1: *const u16, l1_len: usize, l2: *const u16, l2_len: usize,
        l3: *const u16, l3_len: usize, l4: *const u16, l4_len: usize, a: usize, b: usize,
        position: *mut i64, counts: *mut [usize; 3]
    ) -> u32;
    fn lc_feeder_start(
        channels: usize, capacity: usize, limit: usize, terms: *const u8, terms_len: usize,
        seconds: bool, wish: f64, rate: usize, samples: *const u8, samples_len: usize,
        l1: *const u16, l1_len: usize, l2: *const u16, l2_len: usize,
        l3: *const u16, l3_len: usize, l4: *const u16, l4_len: usize,
        ring: *const u8, ring_len: usize, record: *mut [usize; 17], cut: *mut usize
    ) -> u32;
    fn lc_file_len(record: *const [usize; 5], len: *mut usize) -> u32;
    fn lc_file_says(file: *const u8, file_len: usize, said: *mut [usize; 4]) -> u32;
    fn lc_get(
        record: *const [usize; 5], samples: *const u8, samples_len: usize,
        l1: *const u16, l1_len: usize, l2: *const u16, l2_len: usize,
        l3: *const u16, l3_len: usize, l4: *const u16, l4_len: usize, i: usize, value: *mut u16
    ) -> u32;
    fn lc_mill_burst_at(
        record: *const [usize; 5], samples: *const u8, samples_len: usize,
        l1: *const u16, l1_len: usize, l2: *const u16, l2_len: usize,
        l3: *const u16, l3_len: usize, l4: *const u16, l4_len: usize, grant: u16, mask: u16,
        sample: i64, max_gap: usize, tolerance: usize, budget: usize, first: *mut i64,
        last: *mut i64, jumps: *mut [usize; 2], read: *mut usize
    ) -> u32;
    fn lc_mill_encoder(
        record: *const [usize; 5], samples: *const u8, samples_len: usize,
        l1: *const u16, l1_len: usize, l2: *const u16, l2_len: usize,
        l3: *const u16, l3_len: usize, l4: *const u16, l4_len: usize, grant: u16, a: usize,
        b: usize, position: *mut i64, counts: *mut [usize; 3]
    ) -> u32;
    fn lc_mill_extent(
        record: *const [usize; 5], samples: *const u8, samples_len: usize,
        l1: *const u16, l1_len: usize, l2: *const u16, l2_len: usize,
        l3: *const u16, l3_len: usize, l4: *const u16, l4_len: usize, first: *mut i64,
        end: *mut i64, marked: *mut usize
    ) -> u32;
    fn lc_mill_get(
        record: *const [usize; 5], samples: *const u8, samples_len: usize,
        l1: *const u16, l1_len: usize, l2: *const u16, l2_len: usize,
        l3: *const u16, l3_len: usize, l4: *const u16, l4_len: usize, grant: u16, place: i64,
        value: *mut u16
    ) -> u32;
    fn lc_mill_next_change(
        record: *const [usize; 5], samples: *const u8, samples_len: usize,
        l1: *const u16, l1_len: usize, l2: *const u16, l2_len: usize,
        l3: *const u16, l3_len: usize, l4: *const u16, l4_len: usize, grant: u16, mask: u16,
        from: i64, place: *mut i64, read: *mut usize
    ) -> u32;
    fn lc_mill_prev_change(
        record: *const [usize; 5], samples: *const u8, samples_len: usize,
        l1: *const u16, l1_len: usize, l2: *const u16, l2_len: usize,
        l3: *const u16, l3_len: usize, l4: *const u16, l4_len: usize, grant: u16, mask: u16,
        from: i64, place: *mut i64, read: *mut usize
    ) -> u32;
    fn lc_mill_render(
        record: *const [usize; 5], samples: *const u8, samples_len: usize,
        l1: *const u16, l1_len: usize, l2: *const u16, l2_len: usize,
        l3: *const u16, l3_len: usize, l4: *const u16, l4_len: usize, grant: u16, start: f64,
        spp: f64, width: usize, output: *mut u16, output_len: usize
    ) -> u32;
    fn lc_mill_samples(
        record: *const [usize; 5], samples: *const u8, samples_len: usize,
        l1: *const u16, l1_len: usize, l2: *const u16, l2_len: usize,
        l3: *const u16, l3_len: usize, l4: *const u16, l4_len: usize, grant: u16, start: i64,
        count: usize, output: *mut u16, output_len: usize, copied: *mut usize
    ) -> u32;
    fn lc_mill_summary(
        record: *const [usize; 5], samples: *const u8, samples_len: usize,
        l1: *const u16, l1_len: usize, l2: *const u16, l2_len: usize,
        l3: *const u16, l3_len: usize, l4: *const u16, l4_len: usize, grant: u16, a: i64, b: i64,
        node: *mut [u16; 3]
    ) -> u32;
    fn lc_needs(channels: usize, capacity: usize, sizes: *mut [usize; 5]) -> u32;
    fn lc_next_certain(
        record: *const [usize; 5], samples: *const u8, samples_len: usize,
        l1: *const u16, l1_len: usize, l2: *const u16, l2_len: usize,
        l3: *const u16, l3_len: usize, l4: *const u16, l4_len: usize,
        stretches: *const usize, stretches_len: usize, mask: u16, from: usize, place: *mut usize
    ) -> u32;
    fn lc_next_change(
        record: *const [usize; 5], samples: *const u8, samples_len: usize,
        l1: *const u16, l1_len: usize, l2: *const u16, l2_len: usize,
        l3: *const u16, l3_len: usize, l4: *const u16, l4_len: usize, mask: u16, from: usize,
        place: *mut usize, read: *mut usize
    ) -> u32;
    fn lc_next_possible(
        record: *const [usize; 5], samples: *const u8, samples_len: usize,
        l1: *const u16, l1_len: usize, l2: *const u16, l2_len: usize,
        l3: *const u16, l3_len: usize, l4: *const u16, l4_len: usize,
        stretches: *const usize, stretches_len: usize, mask: u16, from: usize, place: *mut usize
    ) -> u32;
    fn lc_prev_certain(
        record: *const [usize; 5], samples: *const u8, samples_len: usize,
        l1: *const u16, l1_len: usize, l2: *const u16, l2_len: usize,
        l3: *const u16, l3_len: usize, l4: *const u16, l4_len: usize,
        stretches: *const usize, stretches_len: usize, mask: u16, from: usize, place: *mut usize
    ) -> u32;
    fn lc_prev_change(
        record: *const [usize; 5], samples: *const u8, samples_len: usize,
        l1: *const u16, l1_len: usize, l2: *const u16, l2_len: usize,
        l3: *const u16, l3_len: usize, l4: *const u16, l4_len: usize, mask: u16, from: usize,
        place: *mut usize, read: *mut usize
    ) -> u32;
    fn lc_prev_possible(
        record: *const [usize; 5], samples: *const u8, samples_len: usize,
        l1: *const u16, l1_len: usize, l2: *const u16, l2_len: usize,
        l3: *const u16, l3_len: usize, l4: *const u16, l4_len: usize,
        stretches: *const usize, stretches_len: usize, mask: u16, from: usize, place: *mut usize
    ) -> u32;
    fn lc_push(
        record: *mut [usize; 17], samples: *mut u8, samples_len: usize,
        l1: *mut u16, l1_len: usize, l2: *mut u16, l2_len: usize, l3: *mut u16, l3_len: usize,
        l4: *mut u16, l4_len: usize, ring: *mut u8, ring_len: usize,
        bytes: *const u8, bytes_len: usize
    ) -> u32;
    fn lc_raw(
        record: *const [usize; 5], samples: *const u8, samples_len: usize,
        l1: *const u16, l1_len: usize, l2: *const u16, l2_len: usize,
        l3: *const u16, l3_len: usize, l4: *const u16, l4_len: usize, chunk: usize,
        from: *mut usize, to: *mut usize
    ) -> ();
    fn lc_read(
        capacity: usize, file: *const u8, file_len: usize, samples: *mut u8, samples_len: usize,
        l1: *mut u16, l1_len: usize, l2: *mut u16, l2_len: usize, l3: *mut u16, l3_len: usize,
        l4: *mut u16, l4_len: usize, record: *mut [usize; 5]
    ) -> u32;
    fn lc_render(
        record: *const [usize; 5], samples: *const u8, samples_len: usize,
        l1: *const u16, l1_len: usize, l2: *const u16, l2_len: usize,
        l3: *const u16, l3_len: usize, l4: *const u16, l4_len: usize, start: f64, spp: f64,
        width: usize, output: *mut u16, output_len: usize
    ) -> u32;
    fn lc_salvage(
        capacity: usize, file: *const u8, file_len: usize, samples: *mut u8, samples_len: usize,
        l1: *mut u16, l1_len: usize, l2: *mut u16, l2_len: usize, l3: *mut u16, l3_len: usize,
        l4: *mut u16, l4_len: usize, stretches: *mut usize, stretches_len: usize,
        record: *mut [usize; 5], counts: *mut [usize; 2]
    ) -> u32;
    fn lc_samples(
        record: *const [usize; 5], samples: *const u8, samples_len: usize,
        l1: *const u16, l1_len: usize, l2: *const u16, l2_len: usize,
        l3: *const u16, l3_len: usize, l4: *const u16, l4_len: usize, start: usize, count: usize,
        output: *mut u16, output_len: usize, copied: *mut usize
    ) -> u32;
    fn lc_start(
        channels: usize, capacity: usize, samples: *const u8, samples_len: usize,
        l1: *const u16, l1_len: usize, l2: *const u16, l2_len: usize,
        l3: *const u16, l3_len: usize, l4: *const u16, l4_len: usize, record: *mut [usize; 5]
    ) -> u32;
    fn lc_summary(
        record: *const [usize; 5], samples: *const u8, samples_len: usize,
        l1: *const u16, l1_len: usize, l2: *const u16, l2_len: usize,
        l3: *const u16, l3_len: usize, l4: *const u16, l4_len: usize, a: usize, b: usize,
        node: *mut [u16; 3], count: *mut u32
    ) -> u32;
    fn lc_whole(
        record: *const [usize; 5], samples: *const u8, samples_len: usize,
        l1: *const u16, l1_len: usize, l2: *const u16, l2_len: usize,
        l3: *const u16, l3_len: usize, l4: *const u16, l4_len: usize, level: *mut usize,
        number: *mut usize
    ) -> u32;
    fn lc_write(
        record: *const [usize; 5], samples: *const u8, samples_len: usize,
        l1: *const u16, l1_len: usize, l2: *const u16, l2_len: usize,
        l3: *const u16, l3_len: usize, l4: *const u16, l4_len: usize,
        output: *mut u8, output_len: usize, len: *mut usize
    ) -> u32;
}
