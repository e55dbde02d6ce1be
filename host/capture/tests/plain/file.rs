//! Shelf files, written byte by byte.

use super::bytes;
use capture::{Lines, BLOCK, MOST_SAMPLES};

const HEAD: usize = 12;
const PAYLOAD: usize = BLOCK - HEAD;

/// A block with a payload.
fn block(number: usize, payload: &[u8]) -> Vec<u8> {
    let mut block = vec![0; BLOCK];
    block[2..4].copy_from_slice(&(payload.len() as u16).to_le_bytes());
    block[4..8].copy_from_slice(&(number as u32).to_le_bytes());
    block[HEAD..HEAD + payload.len()].copy_from_slice(payload);
    seal(&mut block);
    block
}

/// Makes a block's check that of its bytes.
pub fn seal(block: &mut [u8]) {
    let sum: u64 = (2..BLOCK).map(|place| place as u64 * u64::from(block[place])).sum();
    block[..2].copy_from_slice(&((sum % 65_521) as u16).to_le_bytes());
}

/// The file with this payload in block 0, and these sample bytes.
fn of(unit: u8, flag: u8, len: u64, mark: u64, samples: &[u8]) -> Vec<u8> {
    let said = [&[unit, flag][..], &len.to_le_bytes(), &mark.to_le_bytes()].concat();
    let rest = samples.chunks(PAYLOAD).zip(1..).map(|(payload, number)| block(number, payload));
    std::iter::once(block(0, &said)).chain(rest).flatten().collect()
}

/// The file of a capture.
pub fn file(unit: usize, mark: Option<usize>, samples: &[Lines]) -> Vec<u8> {
    let (flag, mark) = (mark.is_some().into(), mark.unwrap_or(0) as u64);
    of(unit as u8, flag, samples.len() as u64, mark, &bytes(samples, unit))
}

/// What block 0 says, unit, flag, len and mark, where some capture's file begins with it.
fn said(file: &[u8]) -> Option<(u8, u8, u64, u64)> {
    let first = file.get(..BLOCK)?;
    let number = |at: usize| u64::from_le_bytes(first[at..at + 8].try_into().unwrap());
    let (unit, flag) = (first[HEAD], first[HEAD + 1]);
    let (len, mark) = (number(HEAD + 2), number(HEAD + 10));
    let fits = [1, 2].contains(&unit) && flag < 2 && len <= MOST_SAMPLES as u64 && mark <= len;
    let again = block(0, &first[HEAD..HEAD + 18]);
    (fits && (flag == 1 || mark == 0) && again == first).then_some((unit, flag, len, mark))
}

/// Whether a capture has the file: whether writing what it seems to hold gives it again.
pub fn is_one(file: &[u8]) -> bool {
    let Some((unit, flag, len, mark)) = said(file) else { return false };
    let mut samples: Vec<u8> =
        file.chunks(BLOCK).skip(1).flat_map(|block| block.iter().skip(HEAD)).copied().collect();
    // No file has fewer bytes than samples.
    samples.resize(file.len().min(len as usize * usize::from(unit)), 0);
    of(unit, flag, len, mark, &samples) == file
}

/// What can be salvaged of a file: unit, mark, and the samples whose blocks writing gives again. None where no capture's file
/// begins so.
pub fn salvaged(file: &[u8]) -> Option<(usize, Option<usize>, Vec<Option<Lines>>)> {
    let (unit, flag, len, mark) = said(file)?;
    let (unit, len) = (usize::from(unit), len as usize);
    let payload = |number: usize| {
        let there = file.get(BLOCK * number..BLOCK * (number + 1))?;
        let payload = &there[HEAD..][..PAYLOAD.min(len * unit - PAYLOAD * (number - 1))];
        (block(number, payload) == there).then_some(payload)
    };
    let good: Vec<_> = (1..=(len * unit).div_ceil(PAYLOAD)).map(payload).collect();
    let sample = |i: usize| {
        let bytes = &good[i * unit / PAYLOAD]?[i * unit % PAYLOAD..][..unit];
        Some(bytes.iter().rev().fold(0, |sample, &byte| sample << 8 | Lines::from(byte)))
    };
    Some((unit, (flag == 1).then_some(mark as usize), (0..len).map(sample).collect()))
}
