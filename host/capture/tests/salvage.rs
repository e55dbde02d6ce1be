//! Damaged files: what is good of them is read, the rest is stored as 0 and told, and a disk that fails at some blocks is read
//! on behind them.

mod plain;

use capture::{Capture, Fault, Lines, ReadError, Refusal, Salvaged, Stretch, BLOCK, MOST_SAMPLES};
use plain::file::{file, is_one, salvaged, seal};
use plain::Rng;
use std::collections::BTreeSet;
use std::error::Error;
use std::io::{self, Cursor, Read, Seek, SeekFrom};

fn samples(capture: &Capture) -> Vec<Lines> {
    capture.samples(0, usize::MAX)
}

/// Holds what was salvaged of a file against the plain model.
fn hold(salvage: &Salvaged, file: &[u8]) {
    let (unit, mark, known) = salvaged(file).unwrap();
    let Salvaged { capture, stretches, replaced, .. } = salvage;
    assert_eq!((capture.unit(), capture.len(), capture.mark()), (unit, known.len(), mark));
    let stored: Vec<Lines> = known.iter().map(|sample| sample.unwrap_or(0)).collect();
    assert!(samples(capture) == stored);
    assert_eq!(*stretches, plain::unknown::stretches(known.iter().map(Option::is_none)));
    assert_eq!(*replaced, known.iter().filter(|sample| sample.is_none()).count());
    assert_eq!(capture.whole(), Ok(()));
    assert_eq!(capture.summary(0, stored.len()), plain::summary(&stored, 0, stored.len()));
}

/// The unknown stretches of a file, as first places and counts: the library, the plain model and streams are of one mind.
fn stretches(file: &[u8]) -> Vec<(usize, usize)> {
    let salvage = Capture::salvage(file, None).unwrap();
    let len = salvage.capture.len();
    hold(&salvage, file);
    assert_eq!((salvage.capture.capacity(), salvage.unread), (len.max(1), 0));
    let roomy = Capture::salvage(file, Some(len + 100)).unwrap();
    hold(&roomy, file);
    assert_eq!(roomy.capture.capacity(), len + 100);
    let streamed = Capture::salvage_from(Cursor::new(file), None).unwrap();
    hold(&streamed, file);
    assert_eq!(streamed.unread, 0);

    let read = Capture::read(file, None);
    assert_eq!(read.is_ok(), is_one(file));
    if let Ok(read) = read {
        assert_eq!(salvage.stretches, []);
        assert_eq!(
            (read.mark(), samples(&read)),
            (salvage.capture.mark(), samples(&roomy.capture))
        );
    }
    salvage.stretches.iter().map(|stretch| (stretch.first, stretch.count)).collect()
}

fn block(file: &mut [u8], number: usize) -> &mut [u8] {
    &mut file[number * BLOCK..][..BLOCK]
}

/// Changes a byte of each of these blocks.
fn damaged(good: &[u8], blocks: impl IntoIterator<Item = usize>) -> Vec<u8> {
    let mut bad = good.to_vec();
    for number in blocks {
        block(&mut bad, number)[7 + number * 97 % 505] ^= 1 + number as u8 % 255;
    }
    bad
}

/// Ten blocks behind block 0, the last with 120 sample bytes.
fn ten(unit: usize) -> Vec<u8> {
    let good = file(unit, Some(700), &Rng(41).samples(4620 / unit, unit, 7));
    assert_eq!(good.len(), 11 * BLOCK);
    good
}

#[test]
fn a_good_file_has_no_stretch() {
    let mut rng = Rng(42);
    for (unit, len) in [(1, 0), (1, 1), (1, 500), (1, 501), (2, 250), (2, 251), (2, 4000)] {
        for mark in [None, Some(0), Some(len)] {
            assert_eq!(stretches(&file(unit, mark, &rng.samples(len, unit, 9))), []);
        }
    }
}

#[test]
fn bad_blocks_and_their_neighbours() {
    let one = ten(1);
    for (bad, expected) in [
        (&[5][..], &[(2000, 500)][..]),
        (&[1], &[(0, 500)]),
        (&[10], &[(4500, 120)]),
        (&[4, 5], &[(1500, 1000)]),
        (&[9, 10], &[(4000, 620)]),
        (&[2, 4], &[(500, 500), (1500, 500)]),
        (&[1, 2, 3, 7, 10], &[(0, 1500), (3000, 500), (4500, 120)]),
        (&[1, 3, 5, 7, 9], &[(0, 500), (1000, 500), (2000, 500), (3000, 500), (4000, 500)]),
        (&[2, 4, 6, 8, 10], &[(500, 500), (1500, 500), (2500, 500), (3500, 500), (4500, 120)]),
        (&[1, 2, 3, 4, 5, 6, 7, 8, 9, 10], &[(0, 4620)]),
    ] {
        assert_eq!(stretches(&damaged(&one, bad.iter().copied())), expected);
        // A sample of two bytes is half as many places.
        let halves: Vec<_> = expected.iter().map(|(first, count)| (first / 2, count / 2)).collect();
        assert_eq!(stretches(&damaged(&ten(2), bad.iter().copied())), halves);
    }
}

#[test]
fn every_second_block_is_as_many_stretches_as_there_can_be() {
    for (unit, blocks) in [(1, 400), (2, 401)] {
        let good = file(unit, None, &Rng(43).samples(500 * blocks / unit, unit, 3));
        let odd = stretches(&damaged(&good, (1..=blocks).step_by(2)));
        assert_eq!(odd.len(), blocks.div_ceil(2));
        assert!(odd
            .iter()
            .all(|&(first, count)| first % (1000 / unit) == 0 && count == 500 / unit));
    }
}

#[test]
fn files_cut_and_lengthened() {
    let good = ten(1);
    // A torn block is missing, even with its payload there.
    assert_eq!(stretches(&good[..11 * BLOCK - 1]), [(4500, 120)]);
    assert_eq!(stretches(&good[..10 * BLOCK + 132]), [(4500, 120)]);
    assert_eq!(stretches(&good[..10 * BLOCK]), [(4500, 120)]);
    assert_eq!(stretches(&good[..10 * BLOCK - 1]), [(4000, 620)]);
    assert_eq!(stretches(&good[..BLOCK + 1]), [(0, 4620)]);
    assert_eq!(stretches(&good[..BLOCK]), [(0, 4620)]);
    for more in [&[0][..], &[1; 511], &[0; 512], &good] {
        assert_eq!(stretches(&[&good[..], more].concat()), []);
        assert_eq!(stretches(&[&damaged(&good, [3])[..], more].concat()), [(1000, 500)]);
    }
    // Without samples everything behind block 0 is passed over.
    assert_eq!(stretches(&[&file(1, Some(0), &[])[..], &good[..700]].concat()), []);
}

#[test]
fn blocks_are_known_by_their_place() {
    let good = ten(1);
    let part = |number: usize| good[number * BLOCK..][..BLOCK].to_vec();
    let put = |blocks: &[(usize, Vec<u8>)]| {
        let mut bad = good.clone();
        blocks.iter().for_each(|(number, with)| block(&mut bad, *number).copy_from_slice(with));
        bad
    };
    assert_eq!(stretches(&put(&[(2, part(7)), (7, part(2))])), [(500, 500), (3000, 500)]);
    assert_eq!(stretches(&put(&[(2, part(3))])), [(500, 500)]);
    // One that fell out makes all behind it bad.
    let lost = [&good[..4 * BLOCK], &good[5 * BLOCK..]].concat();
    assert_eq!(stretches(&lost), [(1500, 3120)]);
    // A block of zeros has the check of its bytes.
    assert_eq!(stretches(&put(&[(6, vec![0; BLOCK])])), [(2500, 500)]);
}

#[test]
fn each_field_makes_a_block_bad() {
    let good = ten(1);
    for number in [5, 10] {
        let count = [500, 120][number / 10];
        let stretch = [((number - 1) * 500, count)];
        // Count, number, zeros, and the padding where there is some: each with the check made right again.
        let padding = (number == 10).then_some([12 + count, 300, 511]).into_iter().flatten();
        for place in [2, 3, 4, 5, 6, 7, 8, 9, 10, 11].into_iter().chain(padding) {
            let mut bad = good.clone();
            block(&mut bad, number)[place] ^= 1;
            assert_eq!(stretches(&bad), stretch, "{place}");
            seal(block(&mut bad, number));
            assert_eq!(stretches(&bad), stretch, "{place}");
        }
        // Samples that were changed with their check are others.
        let mut other = good.clone();
        block(&mut other, number)[12] ^= 1;
        seal(block(&mut other, number));
        assert_eq!(stretches(&other), []);
    }
    // The check is the remainder itself: here 2 + 4, of the count and the number.
    let mut bad = file(1, None, &[0]);
    assert_eq!(bad[BLOCK..BLOCK + 2], [6, 0]);
    bad[BLOCK..BLOCK + 2].copy_from_slice(&(65_521u16 + 6).to_le_bytes());
    assert_eq!(stretches(&bad), [(0, 1)]);
}

#[test]
fn each_byte_behind_block_0_makes_its_block_unknown() {
    let good = file(2, None, &Rng(44).samples(600, 2, 5));
    for place in BLOCK..good.len() {
        let mut bad = good.clone();
        bad[place] ^= 1 + (place % 255) as u8;
        let number = place / BLOCK;
        assert_eq!(stretches(&bad), [((number - 1) * 250, [250, 250, 100][number - 1])]);
    }
}

/// What is wrong with block 0 of a file of which nothing can be salvaged.
fn refused(file: &[u8]) -> String {
    assert_eq!(salvaged(file), None);
    assert_eq!(Capture::salvage(file, None).unwrap_err(), Refusal::Block0);
    let fault = Fault::of(file).unwrap();
    assert_eq!(fault.block, 0);
    let error = Capture::salvage_from(Cursor::new(file), None).unwrap_err();
    assert!(matches!(error, ReadError::Refused(Refusal::Block0, Some(same)) if same == fault));
    assert_eq!(error.to_string(), format!("{}: {fault}", Refusal::Block0));
    fault.to_string()
}

#[test]
fn without_block_0_nothing_is_salvaged() {
    let good = ten(1);
    for len in [0, 1, 511] {
        let what = format!("block 0: the file ends after {len} of its 512 bytes");
        assert_eq!(refused(&good[..len]), what);
    }
    for place in 0..BLOCK {
        let mut bad = good.clone();
        bad[place] ^= 1 + (place % 255) as u8;
        assert!(refused(&bad).starts_with("block 0: its check is "));
    }
    let put = |place: usize, byte: u8| {
        let mut bad = good.clone();
        bad[place] = byte;
        seal(block(&mut bad, 0));
        refused(&bad)
    };
    assert_eq!(put(2, 17), "block 0: its payload count is 17, and 18 is due");
    assert_eq!(put(4, 1), "block 0: its number is 1");
    assert_eq!(put(9, 1), "block 0: its bytes 8 to 11 are not zero");
    assert_eq!(put(400, 1), "block 0: its byte 400, behind the payload, is not zero");
    assert_eq!(put(12, 3), "block 0: its unit is 3, and a unit is 1 or 2");
    assert_eq!(put(13, 2), "block 0: its mark flag is 2, and a flag is 0 or 1");
    assert_eq!(put(13, 0), "block 0: it has the mark 700, and says that there is none");
    assert_eq!(put(17, 4), "block 0: its len is 67113484, above 67108864");
    assert_eq!(put(24, 1), "block 0: its mark is 66236, above its len 4620");
    // No other block stands in for it.
    assert_eq!(refused(&good[BLOCK..]), "block 0: its payload count is 500, and 18 is due");
}

#[test]
fn refusals_come_in_their_order() {
    let (good, bad) = (ten(1), damaged(&ten(1), [0, 3]));
    for (file, capacity, refusal) in [
        (&bad, Some(0), Refusal::Capacity),
        (&bad, Some(MOST_SAMPLES + 1), Refusal::Capacity),
        (&bad, Some(4619), Refusal::Block0),
        (&bad, None, Refusal::Block0),
        (&good, Some(4619), Refusal::FileRoom),
        (&damaged(&good, [3]), Some(1), Refusal::FileRoom),
    ] {
        assert_eq!(Capture::salvage(file, capacity).unwrap_err(), refusal);
        let error = Capture::salvage_from(Cursor::new(file), capacity).unwrap_err();
        assert!(matches!(error, ReadError::Refused(other, _) if other == refusal), "{error}");
    }
}

#[test]
fn what_was_salvaged_goes_on() {
    let bad = damaged(&ten(2), [3]);
    let mut capture = Capture::salvage(&bad, Some(3000)).unwrap().capture;
    let before = samples(&capture);
    capture.append(&[0x34, 0x12]).unwrap();
    assert_eq!(samples(&capture), [&before[..], &[0x1234]].concat());
    assert_eq!(capture.whole(), Ok(()));
    // It has a file of its own, a good one.
    let mut again = Vec::new();
    capture.write_to(&mut again).unwrap();
    assert_eq!(again, file(2, Some(700), &samples(&capture)));
    assert_eq!(stretches(&again), []);
}

#[test]
fn random_damage() {
    let mut rng = Rng(45);
    let mut told = 0;
    for _ in 0..2000 {
        let (unit, len) = (1 + rng.below(2), rng.pick(&[0, 1, 250, 251, 1300, 3000]));
        let mark = rng.pick(&[None, Some(0), Some(len), Some(len / 3)]);
        let mut bad = file(unit, mark, &rng.samples(len, unit, 5));
        for _ in 0..rng.below(6) {
            let at = rng.below(bad.len());
            match rng.below(6) {
                0 => bad[at] = rng.number() as u8,
                // Near a block's beginning there are fields.
                1 => bad[at / BLOCK * BLOCK + at % 32] = rng.pick(&[0, 1, 2, 3, 4, 0xff]),
                2 if at > BLOCK => bad.truncate(at),
                3 if at > BLOCK => bad[at..].fill(0),
                4 => bad.extend([7; 600]),
                5 if at > BLOCK => drop(bad.remove(at)),
                _ => {}
            }
        }
        // Of a len, its low half: a capture of millions takes the plain model long.
        bad[16..22].fill(0);
        for block in bad.chunks_exact_mut(BLOCK).filter(|_| rng.below(3) == 0) {
            seal(block);
        }
        match salvaged(&bad) {
            Some(_) => told += usize::from(!stretches(&bad).is_empty()),
            None => drop(refused(&bad)),
        }
    }
    assert!((500..1900).contains(&told), "{told}");
}

#[test]
fn block_0_alone_of_the_longest_capture() {
    let mut said = file(1, Some(MOST_SAMPLES / 2), &[]);
    said[14..22].copy_from_slice(&(MOST_SAMPLES as u64).to_le_bytes());
    seal(&mut said);
    let salvage = Capture::salvage(&said, None).unwrap();
    assert_eq!(salvage.stretches, [Stretch { first: 0, count: MOST_SAMPLES }]);
    assert_eq!((salvage.replaced, salvage.capture.len()), (MOST_SAMPLES, MOST_SAMPLES));
    assert_eq!(salvage.capture.mark(), Some(MOST_SAMPLES / 2));
    assert_eq!(salvage.capture.density(0, MOST_SAMPLES), 0);
}

/// How a disk fails where it cannot give a block.
#[derive(Clone, Copy, Debug, PartialEq)]
enum Fails {
    /// It gives what is before the block, and fails at the block itself.
    AtBlock,
    /// It gives some bytes of the block first.
    InBlock,
    /// It gives nothing of what is asked for.
    Wholly,
}

/// A disk that cannot give some blocks, and counts what it is asked for.
struct Disk<'a> {
    bytes: &'a [u8],
    bad: BTreeSet<usize>,
    fails: Fails,
    /// Where the file begins on it.
    begin: usize,
    place: usize,
    /// Whether one can go to a place.
    places: bool,
    /// The reads of more than a block, and of a block or less.
    large: usize,
    small: usize,
    seeks: usize,
}

impl Disk<'_> {
    fn new(bytes: &[u8], bad: impl IntoIterator<Item = usize>, fails: Fails) -> Disk<'_> {
        let bad = bad.into_iter().collect();
        Disk { bytes, bad, fails, begin: 0, place: 0, places: true, large: 0, small: 0, seeks: 0 }
    }
}

impl Read for &mut Disk<'_> {
    fn read(&mut self, buffer: &mut [u8]) -> io::Result<usize> {
        match buffer.len() {
            0..=BLOCK => self.small += 1,
            _ => self.large += 1,
        }
        let first = self.place - self.begin;
        let mut end = self.bytes.len().min(first + buffer.len());
        let bad =
            self.bad.iter().find(|&&number| (first / BLOCK..end.div_ceil(BLOCK)).contains(&number));
        if let Some(number) = bad.filter(|_| first < end) {
            let from = number * BLOCK + if self.fails == Fails::InBlock { 100 } else { 0 };
            if first >= from || self.fails == Fails::Wholly {
                // Where it stands now is not known.
                self.place = usize::MAX;
                return Err(io::Error::other("a scratch"));
            }
            end = end.min(from);
        }
        buffer[..end - first].copy_from_slice(&self.bytes[first..end]);
        self.place += end - first;
        Ok(end - first)
    }
}

impl Seek for &mut Disk<'_> {
    fn seek(&mut self, to: SeekFrom) -> io::Result<u64> {
        if !self.places {
            return Err(io::Error::other("no places"));
        }
        match to {
            SeekFrom::Start(place) => {
                self.seeks += 1;
                self.place = place as usize;
            }
            SeekFrom::Current(0) => {}
            _ => panic!("{to:?}"),
        }
        Ok(self.place as u64)
    }
}

/// The file with zeros for the blocks that a disk cannot give, which are bad ones.
fn scratched(good: &[u8], bad: &[usize]) -> Vec<u8> {
    let mut file = good.to_vec();
    bad.iter().for_each(|&number| block(&mut file, number).fill(0));
    file
}

#[test]
fn a_disk_is_read_on_behind_blocks_that_it_cannot_give() {
    // More than two pieces.
    let good = file(2, Some(3), &Rng(46).samples(1_200_000, 2, 50));
    let last = good.len() / BLOCK - 1;
    assert_eq!(last, 4800);
    for bad in [
        &[][..],
        &[1],
        &[2000],
        &[last],
        &[1, 2, 3],
        &[2047, 2048, 2049, 2050],
        &[1, 3, 5, 4700, last - 1, last],
    ] {
        let file = scratched(&good, bad);
        let held = Capture::salvage(&file, None).unwrap();
        hold(&held, &file);
        for (fails, begin) in
            [(Fails::AtBlock, 0), (Fails::InBlock, 0), (Fails::Wholly, 0), (Fails::Wholly, 1000)]
        {
            let mut disk = Disk::new(&good, bad.iter().copied(), fails);
            (disk.begin, disk.place) = (begin, begin);
            let salvage = Capture::salvage_from(&mut disk, None).unwrap();
            assert_eq!(salvage.unread, bad.len(), "{bad:?} {fails:?}");
            assert_eq!((&salvage.stretches, salvage.replaced), (&held.stretches, held.replaced));
            assert!(salvage.capture.raw_chunks().eq(held.capture.raw_chunks()));
        }
    }
}

#[test]
fn a_good_disk_is_read_in_large_pieces() {
    let good = file(2, None, &Rng(47).samples(1_200_000, 2, 50));
    let mut disk = Disk::new(&good, [], Fails::AtBlock);
    Capture::salvage_from(&mut disk, None).unwrap();
    // Block 0, and pieces of a megabyte.
    assert_eq!((disk.small, disk.large, disk.seeks), (1, 3, 0));

    // Where a piece fails it alone is read block by block.
    let mut disk = Disk::new(&good, [2500], Fails::Wholly);
    Capture::salvage_from(&mut disk, None).unwrap();
    assert_eq!((disk.small, disk.large, disk.seeks), (1 + 2048, 3, 2));

    // What came before the failure is not read again.
    let mut disk = Disk::new(&good, [2500], Fails::AtBlock);
    Capture::salvage_from(&mut disk, None).unwrap();
    assert!(disk.small < 1 + 2048 && disk.large == 4, "{} {}", disk.small, disk.large);
}

#[test]
fn no_more_is_read_than_block_0_calls_for() {
    let good = ten(1);
    let long = [&good[..], &[7; 3000]].concat();
    // The disk could not give what is behind.
    let mut disk = Disk::new(&long, 11..20, Fails::Wholly);
    let salvage = Capture::salvage_from(&mut disk, None).unwrap();
    assert_eq!((salvage.replaced, salvage.unread, disk.place), (0, 0, good.len()));

    // A file that ends early has ended, whatever failed before.
    let mut disk = Disk::new(&good[..8 * BLOCK + 9], [7], Fails::Wholly);
    let salvage = Capture::salvage_from(&mut disk, None).unwrap();
    assert_eq!((salvage.stretches[0], salvage.unread), (Stretch { first: 3000, count: 1620 }, 1));

    // Where block 0 is wrong, or the capacity out of range, nothing behind it is read.
    let bad = damaged(&good, [0]);
    let mut disk = Disk::new(&bad, [], Fails::Wholly);
    assert!(Capture::salvage_from(&mut disk, None).is_err());
    assert_eq!(disk.place, BLOCK);
    let mut disk = Disk::new(&good, [], Fails::Wholly);
    assert!(Capture::salvage_from(&mut disk, Some(0)).is_err());
    assert_eq!(disk.place, 0);
}

#[test]
fn a_block_0_that_a_disk_cannot_give_is_missing() {
    let good = ten(1);
    for fails in [Fails::AtBlock, Fails::InBlock, Fails::Wholly] {
        let mut disk = Disk::new(&good, [0], fails);
        let error = Capture::salvage_from(&mut disk, None).unwrap_err();
        assert!(matches!(error, ReadError::Block0(_)));
        let what = "refused, 17: no capture's file begins like this: block 0: a scratch";
        assert_eq!(error.to_string(), what);
        assert_eq!(error.source().unwrap().to_string(), "a scratch");
    }
}

#[test]
fn a_stream_without_places_is_read_up_to_where_it_fails() {
    let good = ten(1);
    let mut pipe = Disk::new(&good, [], Fails::AtBlock);
    pipe.places = false;
    hold(&Capture::salvage_from(&mut pipe, None).unwrap(), &good);
    let mut pipe = Disk::new(&good, [4], Fails::AtBlock);
    pipe.places = false;
    let error = Capture::salvage_from(&mut pipe, None).unwrap_err();
    assert!(matches!(error, ReadError::Stream(_)));
    assert_eq!(error.to_string(), "a scratch");
}

/// Gives a byte or a few at a time, and stops for a signal between them.
struct Halting<'a>(Cursor<&'a [u8]>, Rng);

impl Read for Halting<'_> {
    fn read(&mut self, buffer: &mut [u8]) -> io::Result<usize> {
        if self.1.below(4) == 0 {
            return Err(io::ErrorKind::Interrupted.into());
        }
        let most = buffer.len().min(1 + self.1.below(700));
        self.0.read(&mut buffer[..most])
    }
}

impl Seek for Halting<'_> {
    fn seek(&mut self, to: SeekFrom) -> io::Result<u64> {
        self.0.seek(to)
    }
}

#[test]
fn a_disk_may_give_less_than_it_is_asked_for() {
    let good = damaged(&ten(2), [2, 10]);
    for cut in [good.len(), good.len() - 1, 3 * BLOCK + 77] {
        let halting = Halting(Cursor::new(&good[..cut]), Rng(48));
        let salvage = Capture::salvage_from(halting, None).unwrap();
        hold(&salvage, &good[..cut]);
        assert_eq!(salvage.unread, 0);
    }
}
