//! A shelf file by a plain writer, block by block, and the check of one, which fails where a block is spoiled. The Rust has
//! neither.

const BLOCK: usize = 512;
const HEAD: usize = 12;
pub const PAYLOAD: usize = 500;

/// How long the file of so many sample bytes is.
pub fn length(bytes: usize) -> usize {
    BLOCK * (1 + bytes.div_ceil(PAYLOAD))
}

/// Writes the file of these samples, with a mark or none, and gives its length.
pub fn write(unit: usize, mark: Option<u64>, bytes: &[u8], output: &mut [u8]) -> usize {
    let length = length(bytes.len());
    let (first, rest) = output[..length].split_at_mut(BLOCK);
    let mut said = [0; 18];
    said[0] = unit as u8;
    said[1] = mark.is_some() as u8;
    said[2..10].copy_from_slice(&((bytes.len() / unit) as u64).to_le_bytes());
    said[10..].copy_from_slice(&mark.unwrap_or(0).to_le_bytes());
    write_block(first, 0, &said);
    for (i, (block, payload)) in rest.chunks_mut(BLOCK).zip(bytes.chunks(PAYLOAD)).enumerate() {
        write_block(block, i as u32 + 1, payload);
    }
    length
}

fn write_block(block: &mut [u8], number: u32, payload: &[u8]) {
    let (head, rest) = block.split_at_mut(HEAD);
    head[2..4].copy_from_slice(&(payload.len() as u16).to_le_bytes());
    head[4..8].copy_from_slice(&number.to_le_bytes());
    head[8..].fill(0);
    let (samples, padding) = rest.split_at_mut(payload.len());
    samples.copy_from_slice(payload);
    padding.fill(0);
    let check = check(block);
    block[..2].copy_from_slice(&check.to_le_bytes());
}

fn check(block: &[u8]) -> u16 {
    let products =
        block.iter().enumerate().skip(2).map(|(place, &byte)| place as u32 * byte as u32);
    (products.sum::<u32>() % 65_521) as u16
}

/// How many blocks of a file have the check that they say.
pub fn checked(file: &[u8]) -> usize {
    let right = |block: &&[u8]| check(block) == u16::from_le_bytes([block[0], block[1]]);
    file.chunks(BLOCK).filter(right).count()
}

/// Changes a byte of every so many-th block, so that its check fails, and gives how many these are.
pub fn spoil(file: &mut [u8], every: usize) -> usize {
    let mut bad = 0;
    for block in file.chunks_mut(BLOCK).step_by(every).skip(1) {
        block[HEAD] ^= 1;
        bad += 1;
    }
    bad
}
