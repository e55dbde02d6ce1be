//! Shelf files by CR 7, written from its sentences and not from the library, as plainly as they go: the file of a capture, and
//! the capture that has a file, if one has it.

use super::refusals::MOST;

pub const BLOCK: usize = 512;

/// Sample bytes of a block.
pub const PAYLOAD: usize = 500;

/// Where a block's payload begins.
pub const HEAD: usize = 12;

/// What a file holds of a capture: `len * unit` bytes are its samples.
#[derive(Clone, Debug, PartialEq)]
pub struct Capture {
    pub said: Said,
    pub bytes: Vec<u8>,
}

/// What block 0 says.
#[derive(Clone, Copy, Debug, PartialEq)]
pub struct Said {
    pub unit: u64,
    pub len: u64,
    pub mark: Option<u64>,
}

impl Said {
    /// Whether a capture may have these.
    fn possible(&self) -> bool {
        let mark = self.mark.unwrap_or(0);
        (self.unit == 1 || self.unit == 2) && self.len <= MOST && mark <= self.len
    }

    pub fn values(&self) -> Vec<u64> {
        let Said { unit, len, mark } = *self;
        vec![unit, len, mark.is_some() as u64, mark.unwrap_or(0)]
    }
}

/// How long a file is, in bytes.
pub fn length(unit: u64, len: u64) -> u64 {
    BLOCK as u64 * (1 + (len * unit).div_ceil(PAYLOAD as u64))
}

pub fn file_of(unit: u64, mark: Option<u64>, len: u64, bytes: &[u8]) -> Vec<u8> {
    assert_eq!(bytes.len() as u64, len * unit);
    let mut file = first_block(Said { unit, len, mark });
    for (i, payload) in bytes.chunks(PAYLOAD).enumerate() {
        file.extend(block(i as u32 + 1, payload));
    }
    file
}

/// The capture that has this file, by the file's fields.
pub fn read(file: &[u8]) -> Option<Capture> {
    let said = says(file)?;
    if file.len() as u64 != length(said.unit, said.len) {
        return None;
    }
    let count = (said.len * said.unit) as usize;
    let mut bytes = Vec::new();
    for (i, block) in file.chunks(BLOCK).enumerate().skip(1) {
        let left = count - bytes.len();
        bytes.extend(payload(block, i as u64, left.min(PAYLOAD))?);
    }
    Some(Capture { said, bytes })
}

/// What the file's first block says, whatever comes behind it.
pub fn says(file: &[u8]) -> Option<Said> {
    let payload = payload(file.get(..BLOCK)?, 0, 18)?;
    let (len, mark) = (number(&payload[2..10]), number(&payload[10..18]));
    let mark = match payload[1] {
        0 if mark == 0 => None,
        1 => Some(mark),
        _ => return None,
    };
    let said = Said { unit: payload[0] as u64, len, mark };
    said.possible().then_some(said)
}

/// The payload of a block that has this number and this count, if all else in it is right.
pub fn payload(block: &[u8], own: u64, count: usize) -> Option<&[u8]> {
    let right = block.len() == BLOCK
        && number(&block[0..2]) == check(block) as u64
        && number(&block[2..4]) == count as u64
        && number(&block[4..8]) == own
        && block[8..HEAD] == [0; 4]
        && block[HEAD + count..].iter().all(|&byte| byte == 0);
    right.then(|| &block[HEAD..HEAD + count])
}

/// Whether some capture has this file, found out otherwise: the capture that its bytes speak of is filed, and compared.
pub fn some_capture_has(file: &[u8]) -> bool {
    let Some(said) = spoken(file) else {
        return false;
    };
    let Said { unit, len, mark } = said;
    let payloads = file.chunks_exact(BLOCK).skip(1).flat_map(|block| &block[HEAD..]);
    let bytes: Vec<u8> = payloads.copied().take((len * unit) as usize).collect();
    bytes.len() as u64 == len * unit && file_of(unit, mark, len, &bytes) == file
}

/// Whether some capture's file begins with this file's first block, found out in the same way.
pub fn some_file_begins_so(file: &[u8]) -> bool {
    spoken(file).is_some_and(|said| file.starts_with(&first_block(said)))
}

/// What the places of block 0 hold, where a capture may have that.
fn spoken(file: &[u8]) -> Option<Said> {
    let at = |from: usize, to: usize| Some(number(file.get(from..to)?));
    let mark = at(22, 30)?;
    let mark = (at(13, 14)? == 1).then_some(mark);
    let said = Said { unit: at(12, 13)?, len: at(14, 22)?, mark };
    said.possible().then_some(said)
}

fn first_block(Said { unit, len, mark }: Said) -> Vec<u8> {
    let mut payload = vec![unit as u8, mark.is_some() as u8];
    payload.extend(len.to_le_bytes());
    payload.extend(mark.unwrap_or(0).to_le_bytes());
    block(0, &payload)
}

pub fn block(number: u32, payload: &[u8]) -> Vec<u8> {
    let mut block = vec![0, 0];
    block.extend((payload.len() as u16).to_le_bytes());
    block.extend(number.to_le_bytes());
    block.extend([0; 4]);
    block.extend(payload);
    block.resize(BLOCK, 0);
    mend(&mut block);
    block
}

/// Makes the block's check right.
pub fn mend(block: &mut [u8]) {
    let check = check(block);
    block[..2].copy_from_slice(&check.to_le_bytes());
}

pub fn check(block: &[u8]) -> u16 {
    let sum: u64 = (2..BLOCK).map(|place| place as u64 * block[place] as u64).sum();
    (sum % 65_521) as u16
}

/// Low byte first.
fn number(bytes: &[u8]) -> u64 {
    bytes.iter().rev().fold(0, |sum, &byte| sum * 256 + byte as u64)
}

#[cfg(test)]
mod tests {
    use super::*;

    /// Zeros, but for these bytes.
    fn blocks(count: usize, bytes: &[(usize, u8)]) -> Vec<u8> {
        let mut file = vec![0; BLOCK * count];
        for &(place, byte) in bytes {
            file[place] = byte;
        }
        file
    }

    fn held(unit: u64, mark: Option<u64>, bytes: &[u8]) -> Capture {
        let len = bytes.len() as u64 / unit;
        Capture { said: Said { unit, len, mark }, bytes: bytes.to_vec() }
    }

    fn filed(Capture { said: Said { unit, len, mark }, bytes }: &Capture) -> Vec<u8> {
        file_of(*unit, *mark, *len, bytes)
    }

    /// Both readers.
    fn reads(file: &[u8], capture: Option<Capture>) {
        assert_eq!(some_capture_has(file), capture.is_some());
        let begins = says(file).is_some();
        assert_eq!(some_file_begins_so(file), begins);
        assert!(begins || capture.is_none());
        assert_eq!(read(file), capture);
    }

    fn no_capture_has(file: &[u8]) {
        reads(file, None);
    }

    /// A file with a change in one of its blocks, whose check is made right.
    fn mended(file: &[u8], number: usize, change: impl Fn(&mut [u8])) -> Vec<u8> {
        let mut file = file.to_vec();
        let block = &mut file[number * BLOCK..][..BLOCK];
        change(block);
        mend(block);
        file
    }

    /// 2 x 18 + 12 x 1 = 48.
    #[test]
    fn an_empty_capture_has_one_block() {
        let file = blocks(1, &[(0, 48), (2, 18), (12, 1)]);
        assert_eq!(file_of(1, None, 0, &[]), file);
        reads(&file, Some(held(1, None, &[])));
        assert_eq!(length(1, 0), 512);
    }

    /// 2 x 18 + 12 x 2 + 13 x 1 + 14 x 3 + 22 x 2 = 159; and 2 x 6 + 4 x 1, the number, with
    /// 12 x 1 + 13 x 2 + 14 x 3 + 15 x 4 + 16 x 5 + 17 x 255 = 4555 makes 4571 = 17 x 256 + 219.
    #[test]
    fn three_samples_with_a_mark() {
        let first = [(0, 159), (2, 18), (12, 2), (13, 1), (14, 3), (22, 2)];
        let second = [(0, 219), (1, 17), (2, 6), (4, 1)].map(|(place, byte)| (512 + place, byte));
        let bytes = [1, 2, 3, 4, 5, 255];
        let samples = (0..6).map(|i| (524 + i, bytes[i]));
        let all: Vec<_> = first.into_iter().chain(second).chain(samples).collect();
        let file = blocks(2, &all);
        assert_eq!(file_of(2, Some(2), 3, &bytes), file);
        reads(&file, Some(held(2, Some(2), &bytes)));
        assert_eq!(length(2, 3), 1_024);
    }

    /// A full block of 255: 2 x 244 + 3 x 1, the count, 4 x 1, the number, and 255 x 130,750 make
    /// 33,341,745 = 508 x 65,521 + 57,077. A lone sample that is 0: 2 x 1 + 4 x 1.
    #[test]
    fn a_check_is_a_remainder() {
        let file = file_of(1, None, 500, &[255; 500]);
        assert_eq!(number(&file[512..514]), 57_077);
        let file = file_of(1, None, 1, &[0]);
        assert_eq!(number(&file[512..514]), 6);
        let mut above = file;
        above[512..514].copy_from_slice(&65_527u16.to_le_bytes());
        no_capture_has(&above);
    }

    fn some_captures() -> Vec<Capture> {
        let mut all = Vec::new();
        for unit in [1, 2] {
            for len in [0, 1, 2, 3, 249, 250, 251, 499, 500, 501, 1_000] {
                let bytes: Vec<u8> = (0..len * unit).map(|i| (i * 37 % 251) as u8).collect();
                for mark in [None, Some(0), Some(len / 2), Some(len)] {
                    all.push(held(unit, mark, &bytes));
                }
            }
        }
        all
    }

    #[test]
    fn reading_undoes_writing() {
        for capture in some_captures() {
            let file = filed(&capture);
            let Said { unit, len, .. } = capture.said;
            assert_eq!(file.len() as u64, length(unit, len));
            assert_eq!(says(&file), Some(capture.said));
            for cut in [1, 2, 511, 512, 513].into_iter().filter(|&cut| cut <= file.len()) {
                let shorter = &file[..file.len() - cut];
                assert_eq!(says(shorter), says(&file).filter(|_| shorter.len() >= BLOCK));
                no_capture_has(shorter);
            }
            for more in [&[0][..], &[0; 512], &file] {
                let longer = [&file, more].concat();
                assert_eq!(says(&longer), says(&file));
                no_capture_has(&longer);
            }
            reads(&file, Some(capture));
        }
    }

    #[test]
    fn one_changed_byte_is_seen() {
        for capture in [held(1, None, &[]), held(2, Some(1), &[7; 4]), held(1, None, &[9; 501])] {
            let file = filed(&capture);
            for place in 0..file.len() {
                for value in (0..=255).filter(|&value| value != file[place]) {
                    let mut changed = file.clone();
                    changed[place] = value;
                    assert!(read(&changed).is_none(), "{place} {value}");
                }
            }
        }
    }

    /// Each field, with the check made right.
    #[test]
    fn a_right_check_is_not_enough() {
        let file = file_of(2, Some(2), 251, &[5; 502]);
        for (number, count) in [(0, 18), (1, 500), (2, 2)] {
            for place in (2..HEAD).chain(HEAD + count..BLOCK) {
                for bit in [1, 128] {
                    no_capture_has(&mended(&file, number, |block| block[place] ^= bit));
                }
            }
        }
        let bytes_of = |at: usize, number: u64| {
            mended(&file, 0, |block| block[at..at + 8].copy_from_slice(&number.to_le_bytes()))
        };
        for len in [0, 250, 252, MOST, MOST + 1, 1 << 63, (1 << 63) + 251, u64::MAX] {
            no_capture_has(&bytes_of(14, len));
        }
        for mark in [252, 1 << 63, u64::MAX] {
            no_capture_has(&bytes_of(22, mark));
        }
        for mark in [0, 1, 251] {
            reads(&bytes_of(22, mark), Some(held(2, Some(mark), &[5; 502])));
        }
        for (place, values) in [(12, &[0, 1, 3, 255][..]), (13, &[0, 2, 3, 255])] {
            for &value in values {
                no_capture_has(&mended(&file, 0, |block| block[place] = value));
            }
        }
        // Another sample is another capture's.
        let mut bytes = [5; 502];
        bytes[501] = 6;
        let other = mended(&file, 2, |block| block[13] = 6);
        reads(&other, Some(held(2, Some(2), &bytes)));
    }

    #[test]
    fn blocks_stand_in_order() {
        let file = file_of(1, None, 1_000, &[3; 1_000]);
        let (first, second, third) = (&file[..512], &file[512..1_024], &file[1_024..]);
        reads(&[first, second, third].concat(), Some(held(1, None, &[3; 1_000])));
        no_capture_has(&[first, third, second].concat());
        no_capture_has(&[first, second, second].concat());
        no_capture_has(&[second, first, third].concat());
        no_capture_has(&[first, second].concat());
    }
}
