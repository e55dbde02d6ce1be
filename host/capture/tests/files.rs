//! Shelf files: each capture has one, written and read again over slices and streams; what is damaged is refused and
//! explained.

mod plain;

use capture::{Capture, Fault, Lines, ReadError, Refusal, Said, Wrong, BLOCK, MOST_SAMPLES};
use plain::file::{file, is_one, seal};
use plain::Rng;
use std::collections::BTreeSet;
use std::io::{self, Read, Write};

/// Lengths around the ends of blocks and of nodes, for both units.
const LENS: [usize; 13] = [0, 1, 2, 249, 250, 251, 499, 500, 501, 999, 1000, 1001, 70_000];

fn marks(len: usize) -> BTreeSet<Option<usize>> {
    [None, Some(0), Some(len / 2), Some(len)].into()
}

fn written(capture: &Capture) -> Vec<u8> {
    let mut file = Vec::new();
    assert_eq!(capture.write_to(&mut file).unwrap(), capture.file_len());
    file
}

fn samples(capture: &Capture) -> Vec<Lines> {
    capture.samples(0, usize::MAX)
}

#[test]
fn what_is_written_is_read_again() {
    let mut rng = Rng(21);
    for (unit, len) in [1, 2].into_iter().flat_map(|unit| LENS.map(|len| (unit, len))) {
        let s = rng.samples(len, unit, 9);
        for mark in marks(len) {
            let plain = file(unit, mark, &s);
            assert_eq!(plain.len(), BLOCK * (1 + (len * unit).div_ceil(500)));
            let said = Said { unit, len, mark };
            assert_eq!(Said::of(&plain), Ok(said));
            assert_eq!(Said::of(&plain[..BLOCK]), Ok(said));
            assert_eq!(said.file_len(), Ok(plain.len()));
            assert_eq!(Fault::of(&plain), None);

            for capacity in [None, Some(len.max(1)), Some(len + 1), Some(2 * len + 100)] {
                let capture = Capture::read(&plain, capacity).unwrap();
                assert_eq!((capture.unit(), capture.len(), capture.mark()), (unit, len, mark));
                assert_eq!(capture.capacity(), capacity.unwrap_or(len.max(1)));
                assert!(samples(&capture) == s);
                assert_eq!(capture.whole(), Ok(()));
                assert_eq!(capture.summary(0, len), plain::summary(&s, 0, len));
                assert_eq!(capture.file_len(), plain.len());
                assert!(written(&capture) == plain);
            }
        }
    }
}

#[test]
fn an_appended_and_a_read_capture_are_the_same_and_go_on() {
    let s = Rng(22).samples(3000, 2, 40);
    let bytes = plain::bytes(&s, 2);
    let mut appended = Capture::start(16, 5000).unwrap();
    appended.append(&bytes).unwrap();
    let mut read = Capture::read(&written(&appended), Some(5000)).unwrap();
    for capture in [&mut appended, &mut read] {
        capture.append(&bytes[..2000]).unwrap();
        assert_eq!(capture.whole(), Ok(()));
    }
    assert_eq!(written(&appended), written(&read));
    assert_eq!(appended.next_change(0xff, 3000), read.next_change(0xff, 3000));
    assert_eq!(read.append(&bytes), Err(Refusal::Full));
}

#[test]
fn output_past_the_file_stays_and_a_short_one_is_refused() {
    let capture = Capture::read(&file(1, Some(3), &[5; 501]), None).unwrap();
    let plain = file(1, Some(3), &[5; 501]);
    let mut output = vec![0xee; plain.len() + 10];
    for room in [0, 1, BLOCK, plain.len() - 1] {
        assert_eq!(capture.write(&mut output[..room]), Err(Refusal::FileRoom));
    }
    assert!(output.iter().all(|&byte| byte == 0xee));
    assert_eq!(capture.write(&mut output), Ok(plain.len()));
    assert_eq!(output, [plain, vec![0xee; 10]].concat());
}

#[test]
fn refusals_come_in_their_order() {
    let good = file(1, None, &[1; 40]);
    let mut bad = good.clone();
    bad[BLOCK + 12] ^= 1;
    for (file, capacity, refusal) in [
        (&bad, Some(0), Refusal::Capacity),
        (&bad, Some(MOST_SAMPLES + 1), Refusal::Capacity),
        (&bad, Some(39), Refusal::File),
        (&bad, None, Refusal::File),
        (&good, Some(39), Refusal::FileRoom),
        (&good, Some(1), Refusal::FileRoom),
    ] {
        assert_eq!(Capture::read(file, capacity).unwrap_err(), refusal);
        let error = Capture::read_from(&file[..], capacity).unwrap_err();
        assert!(matches!(error, ReadError::Refused(other, _) if other == refusal), "{error}");
    }
    let said = |unit, len, mark| Said { unit, len, mark }.file_len();
    assert_eq!(said(2, MOST_SAMPLES, Some(MOST_SAMPLES)), Ok(BLOCK * (1 + 268_436)));
    for wrong in [said(0, 1, None), said(1, MOST_SAMPLES + 1, None), said(1, 4, Some(5))] {
        assert_eq!(wrong, Err(Refusal::Capacity));
    }
}

/// Gives its bytes in pieces, and stops for a signal between them.
struct Pieces<'a> {
    bytes: &'a [u8],
    rng: Rng,
}

impl Read for Pieces<'_> {
    fn read(&mut self, buffer: &mut [u8]) -> io::Result<usize> {
        if self.rng.below(4) == 0 {
            return Err(io::ErrorKind::Interrupted.into());
        }
        let most = 1 + self.rng.below(700);
        let count = most.min(buffer.len()).min(self.bytes.len());
        let (piece, rest) = self.bytes.split_at(count);
        buffer[..count].copy_from_slice(piece);
        self.bytes = rest;
        Ok(count)
    }
}

/// What is wrong with a file, where something is: the library, a plain writer, the explanation and streams are of one mind.
fn fault(file: &[u8]) -> Option<Fault> {
    let fault = Fault::of(file);
    let pieces = Pieces { bytes: file, rng: Rng(file.len() as u64) };
    match (Capture::read(file, None), Capture::read_from(pieces, None)) {
        (Ok(slice), Ok(stream)) => {
            assert!(is_one(file));
            assert_eq!(fault, None);
            assert!(written(&slice) == file && written(&stream) == file);
        }
        (Err(Refusal::File), Err(ReadError::Refused(Refusal::File, of_stream))) => {
            assert!(!is_one(file));
            assert!(fault.is_some());
            assert_eq!(of_stream, fault);
        }
        (slice, stream) => panic!("{slice:?} {stream:?}"),
    }
    fault
}

#[test]
fn no_byte_may_be_another() {
    let good = file(1, Some(7), &Rng(23).samples(520, 1, 3));
    assert_eq!((fault(&good), good.len()), (None, 3 * BLOCK));
    for place in 0..good.len() {
        for other in [1, 0xff, 1 + (place * 37 % 254) as u8] {
            let mut bad = good.clone();
            bad[place] ^= other;
            let fault = fault(&bad).unwrap();
            assert_eq!(fault.block, place / BLOCK);
            assert!(matches!(fault.wrong, Wrong::Check { .. }), "{fault}");
        }
    }
}

/// Changes a block of a file, seals it again, and says what is wrong then.
fn changed(good: &[u8], block: usize, change: impl FnOnce(&mut [u8])) -> String {
    let mut bad = good.to_vec();
    let part = &mut bad[block * BLOCK..][..BLOCK];
    change(part);
    seal(part);
    let fault = fault(&bad).unwrap();
    assert_eq!(fault.block, block);
    fault.to_string()
}

#[test]
fn each_field_is_explained() {
    let marked = file(2, Some(7), &Rng(24).samples(300, 2, 3));
    let plain = file(1, None, &[3; 20]);
    let put = |at: usize, byte: u8| move |block: &mut [u8]| block[at] = byte;
    for (said, what) in [
        (changed(&marked, 0, put(2, 17)), "block 0: its payload count is 17, and 18 is due"),
        (changed(&marked, 0, put(2, 19)), "block 0: its payload count is 19, and 18 is due"),
        (changed(&marked, 0, put(5, 1)), "block 0: its number is 256"),
        (changed(&marked, 0, put(8, 1)), "block 0: its bytes 8 to 11 are not zero"),
        (changed(&marked, 0, put(30, 1)), "block 0: its byte 30, behind the payload, is not zero"),
        (
            changed(&marked, 0, put(511, 1)),
            "block 0: its byte 511, behind the payload, is not zero",
        ),
        (changed(&marked, 0, put(12, 0)), "block 0: its unit is 0, and a unit is 1 or 2"),
        (changed(&marked, 0, put(12, 3)), "block 0: its unit is 3, and a unit is 1 or 2"),
        (changed(&marked, 0, put(13, 2)), "block 0: its mark flag is 2, and a flag is 0 or 1"),
        (
            changed(&marked, 0, put(13, 0)),
            "block 0: it has the mark 7, and says that there is none",
        ),
        (changed(&marked, 0, put(17, 4)), "block 0: its len is 67109164, above 67108864"),
        (changed(&marked, 0, put(21, 1)), "block 0: its len is 72057594037928236, above 67108864"),
        (changed(&marked, 0, put(23, 2)), "block 0: its mark is 519, above its len 300"),
        (
            changed(&plain, 0, put(29, 1)),
            "block 0: it has the mark 72057594037927936, and says that there is none",
        ),
        (changed(&marked, 1, put(3, 0)), "block 1: its payload count is 244, and 500 is due"),
        (changed(&marked, 2, put(2, 99)), "block 2: its payload count is 99, and 100 is due"),
        (changed(&marked, 2, put(2, 101)), "block 2: its payload count is 101, and 100 is due"),
        (changed(&marked, 2, put(4, 1)), "block 2: its number is 1"),
        (changed(&marked, 2, put(7, 1)), "block 2: its number is 16777218"),
        (changed(&marked, 1, put(11, 9)), "block 1: its bytes 8 to 11 are not zero"),
        (
            changed(&marked, 2, put(112, 9)),
            "block 2: its byte 112, behind the payload, is not zero",
        ),
        // A block of zeros has the check of its bytes.
        (
            changed(&marked, 1, |block| block.fill(0)),
            "block 1: its payload count is 0, and 500 is due",
        ),
        (
            changed(&marked, 0, |block| block.fill(0)),
            "block 0: its payload count is 0, and 18 is due",
        ),
    ] {
        assert_eq!(said, what);
    }
    // Another len calls for other blocks.
    let grown = |len: u8| {
        let mut bad = plain.clone();
        bad[14] = len;
        seal(&mut bad[..BLOCK]);
        fault(&bad).unwrap().to_string()
    };
    assert_eq!(grown(21), "block 1: its payload count is 20, and 21 is due");
    assert_eq!(grown(0), "block 1: the file goes on, and has to end before it");
}

/// A check that is another number of the same remainder is wrong too.
#[test]
fn the_check_is_the_remainder_itself() {
    let mut file = file(1, None, &[0]);
    // Of the count and the number alone: 2 * 1 + 4 * 1.
    assert_eq!(file[BLOCK..BLOCK + 2], [6, 0]);
    file[BLOCK..BLOCK + 2].copy_from_slice(&(65_521u16 + 6).to_le_bytes());
    let wrong = Wrong::Check { has: 65_527, due: 6 };
    assert_eq!(fault(&file), Some(Fault { block: 1, wrong }));
}

#[test]
fn files_cut_and_lengthened() {
    for good in [file(1, None, &[]), file(1, Some(2), &[1; 500]), file(2, None, &[7; 251])] {
        for len in 0..good.len() {
            let wrong = Wrong::Short { bytes: len % BLOCK };
            assert_eq!(fault(&good[..len]), Some(Fault { block: len / BLOCK, wrong }));
        }
        for more in [1, 2, 511, 512, 513, 2000] {
            for byte in [0, 1, 0xff] {
                let bad = [good.clone(), vec![byte; more]].concat();
                let block = good.len() / BLOCK;
                assert_eq!(fault(&bad), Some(Fault { block, wrong: Wrong::Long }));
            }
        }
        let twice = [&good[..], &good[..]].concat();
        assert_eq!(fault(&twice).map(|fault| fault.wrong), Some(Wrong::Long));
    }
    let good = file(1, None, &[9; 1400]);
    let block = |number: usize| &good[number * BLOCK..][..BLOCK];
    let swapped = [block(0), block(2), block(1), block(3)].concat();
    assert_eq!(fault(&swapped).unwrap().to_string(), "block 1: its number is 2");
    let lost = [block(0), block(1), block(3)].concat();
    assert_eq!(
        fault(&lost).unwrap().to_string(),
        "block 2: its payload count is 400, and 500 is due"
    );
}

#[test]
fn random_damage() {
    let mut rng = Rng(25);
    let mut sound = 0;
    for _ in 0..4000 {
        let (unit, len) = (1 + rng.below(2), rng.pick(&[0, 1, 30, 250, 251, 600]));
        let mark = rng.pick(&[None, Some(0), Some(len), Some(len / 3)]);
        let mut bad = file(unit, mark, &rng.samples(len, unit, 5));
        for _ in 0..rng.below(3) {
            let at = rng.below(bad.len());
            match rng.below(4) {
                0 => bad[at] = rng.number() as u8,
                // Near a block's beginning there are fields.
                1 => bad[at / BLOCK * BLOCK + at % 32] = rng.pick(&[0, 1, 2, 3, 4, 0xff]),
                2 => bad.truncate(at.max(1)),
                _ => bad.push(0),
            }
        }
        for block in bad.chunks_exact_mut(BLOCK).filter(|_| rng.below(3) > 0) {
            seal(block);
        }
        sound += usize::from(fault(&bad).is_none());
    }
    assert!((1000..3000).contains(&sound), "{sound}");
}

/// Gives bytes without end, and counts them.
struct Endless<'a> {
    begin: &'a [u8],
    given: usize,
}

impl Read for &mut Endless<'_> {
    fn read(&mut self, buffer: &mut [u8]) -> io::Result<usize> {
        for (place, byte) in buffer.iter_mut().enumerate() {
            *byte = self.begin.get(self.given + place).copied().unwrap_or(0);
        }
        self.given += buffer.len();
        Ok(buffer.len())
    }
}

#[test]
fn no_more_of_a_stream_is_read_than_its_file_and_a_byte() {
    let good = file(2, Some(1), &[1; 600]);
    let mut stream = Endless { begin: &good, given: 0 };
    let error = Capture::read_from(&mut stream, None).unwrap_err();
    assert!(error.to_string().ends_with("block 4: the file goes on, and has to end before it"));
    assert_eq!(stream.given, good.len() + 1);

    // Where block 0 is wrong nothing behind it is read.
    let mut bad = good.clone();
    bad[20] = 1;
    let mut stream = Endless { begin: &bad, given: 0 };
    assert!(Capture::read_from(&mut stream, None).is_err());
    assert_eq!(stream.given, BLOCK);

    // Where the capacity is out of range nothing is.
    let mut stream = Endless { begin: &good, given: 0 };
    assert!(Capture::read_from(&mut stream, Some(0)).is_err());
    assert_eq!(stream.given, 0);
}

#[test]
fn a_stream_that_fails_is_said() {
    struct Fails;
    impl Read for Fails {
        fn read(&mut self, _: &mut [u8]) -> io::Result<usize> {
            Err(io::Error::other("the cable is out"))
        }
    }
    impl Write for Fails {
        fn write(&mut self, _: &[u8]) -> io::Result<usize> {
            Err(io::Error::other("the disk is full"))
        }
        fn flush(&mut self) -> io::Result<()> {
            Ok(())
        }
    }
    let good = file(1, None, &[1; 600]);
    for streamed in [0, 100, 512, 600] {
        let error = Capture::read_from(good[..streamed].chain(Fails), None).unwrap_err();
        assert!(matches!(error, ReadError::Stream(_)));
        assert_eq!(error.to_string(), "the cable is out");
    }
    let capture = Capture::read(&good, None).unwrap();
    assert_eq!(capture.write_to(Fails).unwrap_err().to_string(), "the disk is full");
}

#[test]
fn the_longest_capture_has_a_file() {
    let mut capture = Capture::start(8, MOST_SAMPLES).unwrap();
    let chunk = vec![0x5a; 1 << 20];
    for _ in 0..MOST_SAMPLES / chunk.len() {
        capture.append(&chunk).unwrap();
    }
    let file = written(&capture);
    assert_eq!(file.len(), BLOCK * (1 + MOST_SAMPLES.div_ceil(500)));
    drop(capture);
    let again = Capture::read(&file, None).unwrap();
    assert_eq!((again.len(), again.get(MOST_SAMPLES - 1)), (MOST_SAMPLES, Ok(0x5a)));
}
