//! Searches across unknown stretches: each answer is that of every filling of the unknown samples, and lists that are none are
//! refused.

mod plain;

use capture::{Capture, Lines, Refusal, Stretch, BLOCK, CHUNK};
use plain::file::file;
use plain::unknown::{next, prev, stretches, Across};
use plain::Rng;

fn captured(samples: &[Lines], unit: usize) -> Capture {
    Capture::read(&file(unit, None, samples), None).unwrap()
}

/// Stretches by first places and counts.
fn list(pairs: &[(usize, usize)]) -> Vec<Stretch> {
    pairs.iter().map(|&(first, count)| Stretch { first, count }).collect()
}

/// The four answers from a place: next and previous, certain, then possible.
fn asked(capture: &Capture, list: &[Stretch], mask: Lines, from: usize) -> [Option<usize>; 4] {
    [
        capture.next_certain(list, mask, from),
        capture.prev_certain(list, mask, from),
        capture.next_possible(list, mask, from),
        capture.prev_possible(list, mask, from),
    ]
    .map(Result::unwrap)
}

/// The same of the plain model.
fn due(across: &Across, from: usize) -> [Option<usize>; 4] {
    let Across { certain, possible } = across;
    [next(certain, from), prev(certain, from), next(possible, from), prev(possible, from)]
}

/// Masks with lines of unit 1, with none, and with lines of unit 2 alone.
const MASKS: [Lines; 7] = [0, 0b1, 0b10, 0x80, 0x100, 0x8001, 0xffff];

/// Holds all answers against every filling.
fn hold(samples: &[Lines], unit: usize, unknown: &[Stretch]) {
    let capture = captured(samples, unit);
    for mask in MASKS {
        let across = Across::by_fillings(samples, unit, unknown, mask);
        assert_eq!(across, Across::by_pairs(samples, unit, unknown, mask));
        for from in (0..samples.len() + 2).chain([usize::MAX]) {
            let answers = asked(&capture, unknown, mask, from);
            assert_eq!(answers, due(&across, from), "{samples:?} {unknown:?} {mask:#x} {from}");
        }
    }
}

/// Every choice of at most `most` unknown samples among so many.
fn choices(len: usize, most: u32) -> impl Iterator<Item = Vec<Stretch>> {
    let chosen = (0u32..1 << len).filter(move |chosen| chosen.count_ones() <= most);
    chosen.map(move |chosen| stretches((0..len).map(|i| chosen >> i & 1 == 1)))
}

#[test]
fn every_filling_of_captures_of_unit_1() {
    // Samples that are alike, and that differ in some lines, on both sides of what is unknown.
    for samples in [&[][..], &[3], &[0, 1], &[0, 0, 0, 0, 0], &[1, 1, 0, 2, 0x82]] {
        choices(samples.len(), 2).for_each(|unknown| hold(samples, 1, &unknown));
    }
}

#[test]
fn every_filling_of_captures_of_unit_2() {
    for samples in [&[0][..], &[0x100, 0x100, 0, 0x8000], &[0, 0x101, 0x101, 1]] {
        choices(samples.len(), 1).for_each(|unknown| hold(samples, 2, &unknown));
    }
}

/// A list of unknown stretches, from none up to every second sample or all.
fn some(rng: &mut Rng, len: usize) -> Vec<Stretch> {
    let (share, calm) = (rng.below(5), rng.pick(&[1, 3, 40, 1000]));
    let mut unknown = Vec::with_capacity(len);
    while unknown.len() < len {
        let run = len.min(unknown.len() + 1 + rng.below(calm));
        unknown.resize(run, rng.below(4) < share);
    }
    stretches(unknown)
}

#[test]
fn long_captures_answer_as_the_pairs_of_their_samples() {
    let mut rng = Rng(61);
    for round in 0..80 {
        let unit = 1 + round % 2;
        let len = match round {
            0..2 => CHUNK + 5000,
            _ => rng.pick(&[2, 33, 1025, 5000, 40_000]),
        };
        let calm = rng.pick(&[1, 5, 300]);
        let samples = rng.samples(len, unit, calm);
        let (capture, unknown) = (captured(&samples, unit), some(&mut rng, len));
        for _ in 0..4 {
            let mask = rng.pick(&[0, 0x100, 0x8000, 0xffff, 1 << (round % 8)]);
            let across = Across::by_pairs(&samples, unit, &unknown, mask);
            // Places by chance, those around a stretch, and those around borders of the summary tree.
            let mut places = vec![0, rng.below(len), len - 1, len, usize::MAX, 32, 1024, CHUNK];
            for _ in 0..unknown.len().min(3) {
                let Stretch { first, count } = rng.pick(&unknown);
                places.extend([first, first + count]);
            }
            for from in places.iter().flat_map(|&at| [at.saturating_sub(1), at]) {
                let answers = asked(&capture, &unknown, mask, from);
                assert_eq!(answers, due(&across, from), "{round} {mask:#x} {from}");
            }
        }
    }
}

#[test]
fn without_stretches_each_is_the_ordinary_search() {
    let mut rng = Rng(62);
    for round in 0..100 {
        let unit = 1 + round % 2;
        let (len, calm) = (rng.below(5000), rng.pick(&[1, 40, 1000]));
        let capture = captured(&rng.samples(len, unit, calm), unit);
        for _ in 0..20 {
            let (mask, from) = (rng.pick(&MASKS), rng.below(len + 3));
            let next = capture.next_change(mask, from).found;
            let prev = capture.prev_change(mask, from).found;
            assert_eq!(asked(&capture, &[], mask, from), [next, prev, next, prev]);
        }
    }
}

#[test]
fn what_is_stored_in_a_stretch_does_not_matter() {
    let mut rng = Rng(63);
    for round in 0..60 {
        let unit = 1 + round % 2;
        let len = 1 + rng.below(3000);
        let mut samples = rng.samples(len, unit, 20);
        let unknown = some(&mut rng, len);
        let one = captured(&samples, unit);
        for &Stretch { first, count } in &unknown {
            samples[first..][..count].copy_from_slice(&rng.samples(count, unit, 3));
        }
        let other = captured(&samples, unit);
        for _ in 0..20 {
            let (mask, from) = (rng.pick(&MASKS), rng.below(len + 3));
            assert_eq!(asked(&one, &unknown, mask, from), asked(&other, &unknown, mask, from));
        }
    }
}

#[test]
fn stretches_at_the_first_place_and_at_the_end() {
    let capture = captured(&[0, 0, 1, 1, 1, 0, 0, 0], 1);
    let end = usize::MAX;
    // No sample is before the first one, so that there is no change at 0.
    let first = list(&[(0, 1)]);
    assert_eq!(asked(&capture, &first, 1, 0), [Some(2), None, Some(1), None]);
    assert_eq!(asked(&capture, &first, 1, 1), [Some(2), None, Some(2), Some(1)]);
    // The change at 2 is the one right behind the stretch.
    let begin = list(&[(0, 2)]);
    assert_eq!(asked(&capture, &begin, 1, 0), [Some(5), None, Some(1), None]);
    assert_eq!(asked(&capture, &begin, 1, 4), [Some(5), None, Some(5), Some(2)]);
    let last = list(&[(7, 1)]);
    assert_eq!(asked(&capture, &last, 1, 5), [None, Some(5), Some(7), Some(5)]);
    assert_eq!(asked(&capture, &last, 1, end), [None, Some(5), None, Some(7)]);
    let all = list(&[(0, 8)]);
    assert_eq!(asked(&capture, &all, 1, 0), [None, None, Some(1), None]);
    assert_eq!(asked(&capture, &all, 1, 5), [None, None, Some(6), Some(5)]);
    assert_eq!(asked(&capture, &all, 1, end), [None, None, None, Some(7)]);
}

#[test]
fn lines_that_the_unit_lacks_do_not_change() {
    let samples = [0, 0, 1, 1, 0, 0];
    let unknown = list(&[(1, 1), (4, 2)]);
    for line in 8..16 {
        for from in [0, 3, usize::MAX] {
            assert_eq!(asked(&captured(&samples, 1), &unknown, 1 << line, from), [None; 4]);
        }
        // Beside one that it has they do not matter; in unit 2 they are lines like others.
        let one = asked(&captured(&samples, 1), &unknown, 1 << line | 1, 0);
        assert_eq!(one, [None, None, Some(1), None]);
        let other = asked(&captured(&samples, 2), &unknown, 1 << line, 3);
        assert_eq!(other, [None, None, Some(4), Some(2)]);
    }
}

#[test]
fn lists_that_are_taken_and_that_are_refused() {
    const MOST: usize = usize::MAX;
    let samples: Vec<Lines> = (0..100).map(|i| i / 3 % 2).collect();
    let capture = captured(&samples, 1);
    let taken: &[&[(usize, usize)]] = &[
        &[],
        &[(0, 100)],
        &[(99, 1)],
        &[(50, 50)],
        &[(0, 1), (2, 1)],
        &[(0, 49), (50, 50)],
        &[(10, 5), (16, 4), (21, 79)],
    ];
    for pairs in taken {
        for mask in [0, 1, 0x100] {
            let across = Across::by_pairs(&samples, 1, &list(pairs), mask);
            for from in [0, 49, 50, 99, 100, MOST] {
                assert_eq!(asked(&capture, &list(pairs), mask, from), due(&across, from));
            }
        }
    }
    let refused: &[&[(usize, usize)]] = &[
        // Of no samples.
        &[(0, 0)],
        &[(50, 0)],
        &[(100, 0)],
        &[(10, 5), (16, 0)],
        // Past the end, in exact numbers.
        &[(0, 101)],
        &[(99, 2)],
        &[(100, 1)],
        &[(50, 51)],
        &[(10, 5), (16, 85)],
        &[(1, MOST)],
        &[(50, MOST - 49)],
        &[(50, MOST - 48)],
        &[(MOST, 1)],
        &[(MOST, MOST)],
        &[(10, 5), (16, MOST - 15)],
        // Touching, overlapping, out of order.
        &[(0, 1), (1, 1)],
        &[(10, 5), (15, 4)],
        &[(10, 5), (14, 4)],
        &[(10, 5), (10, 5)],
        &[(10, 5), (11, 2)],
        &[(16, 4), (10, 5)],
        &[(15, 4), (10, 5)],
        &[(0, 100), (0, 1)],
        &[(10, 5), (16, 4), (20, 80)],
    ];
    for pairs in refused {
        let list = list(pairs);
        for (mask, from) in [(1, 0), (0, MOST)] {
            for answer in [
                capture.next_certain(&list, mask, from),
                capture.prev_certain(&list, mask, from),
                capture.next_possible(&list, mask, from),
                capture.prev_possible(&list, mask, from),
            ] {
                assert_eq!(answer, Err(Refusal::Stretches), "{pairs:?}");
            }
        }
    }
    // Without samples there is no stretch.
    let none = captured(&[], 1);
    assert_eq!(asked(&none, &[], 1, 0), [None; 4]);
    assert_eq!(none.next_possible(&list(&[(0, 1)]), 1, 0), Err(Refusal::Stretches));
}

/// What the stretches of a salvage are for: whatever stood in the bad blocks, a certain change is one of the capture that was
/// filed, and each change of that is a possible one.
#[test]
fn what_was_salvaged_is_searched() {
    let mut rng = Rng(64);
    for round in 0..40 {
        let unit = 1 + round % 2;
        let filed = rng.samples(4000, unit, 100);
        let mut bad = file(unit, Some(7), &filed);
        let blocks = bad.len() / BLOCK;
        for _ in 0..rng.below(6) {
            bad[BLOCK * (1 + rng.below(blocks - 1)) + rng.below(BLOCK)] ^= 1;
        }
        let salvaged = Capture::salvage(&bad, None).unwrap();
        let (capture, unknown) = (&salvaged.capture, &salvaged.stretches);
        let stored = capture.samples(0, filed.len());
        for mask in MASKS {
            let across = Across::by_pairs(&stored, unit, unknown, mask);
            let whole = Across::by_pairs(&filed, unit, &[], mask).certain;
            assert!(across.certain.iter().all(|place| whole.binary_search(place).is_ok()));
            assert!(whole.iter().all(|place| across.possible.binary_search(place).is_ok()));
            for from in (0..filed.len()).step_by(97).chain([0, 249, 250, 500, usize::MAX]) {
                assert_eq!(asked(capture, unknown, mask, from), due(&across, from));
            }
        }
    }
}
