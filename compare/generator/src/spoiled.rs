//! Ways in which a block of a file is bad.

use crate::document::file::{mend, BLOCK, HEAD, PAYLOAD};

/// Each makes a good block bad: its check, a sample; with the check made right its count, its number, the zeros behind it and
/// its padding; and zeros throughout, whose check holds.
pub const WAYS: [fn(&mut [u8]); 7] = [
    |block| block[1] ^= 1,
    sample,
    |block| field(block, 2),
    |block| field(block, 4),
    |block| field(block, HEAD - 1),
    padding,
    |block| block.fill(0),
];

pub fn sample(block: &mut [u8]) {
    block[HEAD] ^= 16;
}

/// The last byte is padding but for a full payload, whose check stays as it was.
fn padding(block: &mut [u8]) {
    let full = block[2..4] == (PAYLOAD as u16).to_le_bytes();
    let check = [block[0], block[1]];
    field(block, BLOCK - 1);
    if full {
        block[..2].copy_from_slice(&check);
    }
}

/// Another byte, and the check of it.
fn field(block: &mut [u8], at: usize) {
    block[at] ^= 1;
    mend(block);
}

/// The file with this block bad.
pub fn spoiled(file: &[u8], number: usize, way: fn(&mut [u8])) -> Vec<u8> {
    let mut file = file.to_vec();
    way(&mut file[number * BLOCK..][..BLOCK]);
    file
}

/// The file with the blocks of a set bad.
pub fn spoiled_set(file: &[u8], set: u64, way: fn(&mut [u8])) -> Vec<u8> {
    let numbers = (1..file.len() / BLOCK).filter(|&number| within(set, number));
    numbers.fold(file.to_vec(), |file, number| spoiled(&file, number, way))
}

/// Whether a set of blocks, a bit for each from block 1 on, has this one.
pub fn within(set: u64, number: usize) -> bool {
    set >> (number - 1) & 1 == 1
}
