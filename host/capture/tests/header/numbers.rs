//! "The lines and the previous sample count modulo 65536": what a recorder's record has there above 16 bits is not read.

use crate::calls::{self, recorder};
use crate::given::{Given, Lent};

/// The lines of each kind of term.
const KINDS: [usize; 5] = [
    recorder::HIGH_LINES,
    recorder::LOW_LINES,
    recorder::RISING_LINES,
    recorder::FALLING_LINES,
    recorder::EDGE_LINES,
];

/// The numbers of a record that count so.
fn modulo() -> impl Iterator<Item = usize> {
    KINDS.into_iter().chain([recorder::PREVIOUS])
}

/// What a push says, and leaves: the record, sample memory and ring.
fn pushed(given: Given) -> (u32, [usize; 17], Vec<u8>, Vec<u8>) {
    let lent = Lent::new(given);
    let code = calls::push(&lent);
    // SAFETY: so much was put there.
    unsafe {
        let samples = std::slice::from_raw_parts(lent.samples, lent.given.samples.len()).to_vec();
        let ring = std::slice::from_raw_parts(lent.ring, lent.given.ring.len()).to_vec();
        (code, *lent.record, samples, ring)
    }
}

#[test]
fn a_recorders_lines_and_previous_sample_count_modulo_65536() {
    // one of each kind of term on line 1, with a previous sample in which it is low, and one in which it is high
    for (kind, previous) in KINDS.into_iter().flat_map(|kind| [(kind, 0b01), (kind, 0b11)]) {
        for samples in [[0u8, 2, 0, 2], [0, 0, 0, 0], [2, 2, 2, 0]] {
            for often in [1, 4] {
                let mut given = Given::new();
                given.empty();
                given.record[recorder::WAITS] = 1;
                given.record[kind] = 0b10;
                given.record[recorder::PREVIOUS] = previous;
                given.bytes = samples.repeat(often).iter().flat_map(|&low| [low, 0]).collect();
                let (code, record, memory, ring) = pushed(given.clone());
                for above in [1 << 16, 1 << 17, usize::MAX << 16] {
                    let mut wide = given.clone();
                    modulo().for_each(|at| wide.record[at] |= above);
                    let (code_then, mut record_then, memory_then, ring_then) = pushed(wide);
                    modulo().for_each(|at| record_then[at] %= 65536);
                    assert_eq!(
                        (code_then, record_then),
                        (code, record),
                        "{kind} {previous} {samples:?}"
                    );
                    assert!(
                        memory_then == memory && ring_then == ring,
                        "{kind} {previous} {samples:?}"
                    );
                }
            }
        }
    }
}
