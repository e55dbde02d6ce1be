//! An encoder by a plain scan, from each sample to the next. The Rust has none.

use crate::work::Samples;

/// Its position, and its steps forward, backward and skipped.
pub fn encoder(samples: &Samples, lines: [usize; 2]) -> (i64, [u64; 3]) {
    let bytes = &samples.bytes;
    match samples.unit {
        1 => turns(bytes.iter().map(|&byte| byte as u16), lines),
        _ => turns(bytes.chunks_exact(2).map(|two| u16::from_le_bytes([two[0], two[1]])), lines),
    }
}

fn turns(mut samples: impl Iterator<Item = u16>, [a, b]: [usize; 2]) -> (i64, [u64; 3]) {
    let (mut position, mut forward, mut backward, mut skipped) = (0, 0, 0, 0);
    let lines = 1 << a | 1 << b;
    let mut before = samples.next().unwrap_or(0);
    for after in samples {
        match (before ^ after) & lines {
            0 => {}
            changed if changed == lines => skipped += 1,
            _ if before >> a & 1 == after >> b & 1 => {
                forward += 1;
                position += 1;
            }
            _ => {
                backward += 1;
                position -= 1;
            }
        }
        before = after;
    }
    (position, [forward, backward, skipped])
}
