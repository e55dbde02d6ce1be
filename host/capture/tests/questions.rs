//! Each question is answered as a plain scan over the samples answers it, and searches read the nodes of the walk.

mod plain;

use capture::{Capture, Encoder, Lines, Refusal, View, CHUNK, MOST_PIXELS};
use plain::walk::Walk;
use plain::Rng;

fn captured(samples: &[Lines], unit: usize) -> Capture {
    let mut capture = Capture::start(8 * unit, samples.len().max(1)).unwrap();
    capture.append(&plain::bytes(samples, unit)).unwrap();
    capture
}

/// A place in the capture or a little past it, often beside a border of the summary tree.
fn place(rng: &mut Rng, len: usize) -> usize {
    let near = match rng.below(6) {
        0 => return usize::MAX - rng.below(3),
        1 => 32 * rng.below(len / 32 + 2),
        2 => 1024 * rng.below(len / 1024 + 2),
        3 => CHUNK * rng.below(len / CHUNK + 2),
        _ => rng.below(len + 3),
    };
    (near + rng.below(3)).saturating_sub(1)
}

fn mask(rng: &mut Rng) -> Lines {
    match rng.below(5) {
        0 => 0xffff,
        1 => 0,
        2 => rng.number() as Lines,
        _ => 1 << rng.below(16),
    }
}

/// A line of an encoder, or a number that is none.
fn line(rng: &mut Rng) -> usize {
    match rng.below(12) {
        0 => rng.pick(&[16, 17, 63, 64, 65, 1 << 32, usize::MAX]),
        1..=3 => rng.below(16),
        _ => rng.below(3),
    }
}

/// Asks a capture everything, some times over.
fn ask(rng: &mut Rng, samples: &[Lines], unit: usize, times: usize) {
    let (capture, walk) = (captured(samples, unit), Walk::over(samples));
    let len = samples.len();
    assert_eq!((capture.unit(), capture.len(), capture.mark()), (unit, len, None));
    assert_eq!(capture.whole(), Ok(()));
    assert_eq!(capture.samples(0, usize::MAX), samples);
    assert_eq!(capture.raw_chunks().collect::<Vec<_>>().concat(), plain::bytes(samples, unit));
    for _ in 0..times {
        let (mask, a, b) = (mask(rng), place(rng, len), place(rng, len));
        assert_eq!(capture.get(a).ok(), samples.get(a).copied());
        assert_eq!(capture.next_change(mask, a), walk.next_change(mask, a), "next {mask} {a}");
        assert_eq!(capture.prev_change(mask, a), walk.prev_change(mask, a), "prev {mask} {a}");
        assert_eq!(capture.summary(a, b), plain::summary(samples, a, b), "summary {a} {b}");
        assert_eq!(capture.density(a, b), plain::density(samples, a, b), "density {a} {b}");
        let (gap, tolerance, budget) = (place(rng, 2000), place(rng, 100), rng.below(5));
        assert_eq!(
            capture.burst_at(mask, a, gap, tolerance, budget),
            walk.burst_at(mask, a, gap, tolerance, budget),
            "burst {mask} {a} {gap} {tolerance} {budget}"
        );
        let bursts = plain::bursts(samples, mask, gap);
        assert!(capture.bursts(mask, gap).eq(bursts), "bursts {mask} {gap}");
        let (line_a, line_b) = (line(rng), line(rng));
        let turned = match line_a == line_b || line_a > 15 || line_b > 15 {
            true => Err(Refusal::EncoderLines),
            false => Ok(plain::encoder(samples, line_a, line_b)),
        };
        assert_eq!(capture.encoder(line_a, line_b), turned, "encoder {line_a} {line_b}");
        let start = (rng.below(2 * len + 10) as f64 - len as f64) / rng.pick(&[1.0, 3.0, 7.5]);
        let spp = rng.pick(&[0.0, 0.1, 0.5, 1.0, 1.7, 32.0, 1000.3, -2.5, 1e300]);
        let (view, width) = (View { start, spp }, rng.below(20));
        assert_eq!(
            capture.render(view, width).unwrap(),
            plain::render(samples, view, width),
            "{view:?} {width}"
        );
    }
}

#[test]
fn short_captures_answer_as_plain_scans() {
    let mut rng = Rng(1);
    for round in 0..400 {
        let unit = 1 + round % 2;
        let (len, calm) = (rng.below(200), rng.pick(&[1, 3, 40]));
        let samples = rng.samples(len, unit, calm);
        ask(&mut rng, &samples, unit, 20);
    }
}

#[test]
fn captures_of_several_levels_answer_as_plain_scans() {
    let mut rng = Rng(2);
    for round in 0..20 {
        let unit = 1 + round % 2;
        let (len, calm) = (rng.below(70_000), rng.pick(&[5, 300, 20_000]));
        let samples = rng.samples(len, unit, calm);
        ask(&mut rng, &samples, unit, 20);
    }
}

#[test]
fn captures_of_several_chunks_answer_as_plain_scans() {
    let mut rng = Rng(3);
    for unit in [1, 2] {
        let samples = rng.samples(2 * CHUNK + 12_345, unit, 400_000);
        ask(&mut rng, &samples, unit, 8);
    }
}

#[test]
fn a_lone_change_is_found_wherever_it_is() {
    let len = CHUNK + 1500;
    let mut borders = vec![1, 31, 32, 33, 1023, 1024, 1025, 32_767, 32_768, 32_769];
    borders.extend([CHUNK - 1, CHUNK, CHUNK + 1, CHUNK + 1024, len - 1]);
    for at in borders {
        let mut samples = vec![0x0f0; len];
        samples[at..].fill(0x1f0);
        let capture = captured(&samples, 2);
        for from in [0, at - 1] {
            assert_eq!(capture.next_change(0x100, from).found, Some(at));
        }
        assert_eq!(capture.next_change(0x100, at).found, None);
        for from in [at, len - 1, usize::MAX] {
            assert_eq!(capture.prev_change(0x100, from).found, Some(at));
        }
        assert_eq!(capture.prev_change(0x100, at - 1).found, None);
        assert_eq!((capture.density(0, len), capture.density(at - 1, at + 1)), (1, 1));
        assert_eq!((capture.density(0, at), capture.density(at, len)), (0, 0));
        assert_eq!(capture.encoder(8, 0), Ok(Encoder { forward: 1, position: 1, ..STILL }));
        assert_eq!(capture.encoder(8, 7), Ok(Encoder { backward: 1, position: -1, ..STILL }));
        assert_eq!(capture.encoder(0, 7), Ok(STILL));
        assert_eq!(capture.next_change(0x0ff, 0).found, None);
        assert!(capture.changes(0xffff, 0).eq([at]));
    }
}

/// An encoder that has not moved.
const STILL: Encoder = Encoder { position: 0, forward: 0, backward: 0, skipped: 0 };

#[test]
fn which_way_an_encoder_turns() {
    for unit in [1, 2] {
        let turned = |samples: &[Lines]| captured(samples, unit).encoder(0, 1).unwrap();
        assert_eq!(turned(&[0, 1, 3, 2, 0]), Encoder { position: 4, forward: 4, ..STILL });
        assert_eq!(turned(&[0, 2, 3, 1, 0]), Encoder { position: -4, backward: 4, ..STILL });
        // A skip, and then a step from where it has skipped to.
        let skip = Encoder { position: -1, backward: 1, skipped: 1, ..STILL };
        assert_eq!(turned(&[0, 3, 1]), skip);
        assert_eq!(turned(&[0, 3, 2]), Encoder { position: 1, forward: 1, backward: 0, ..skip });
        assert_eq!(turned(&[1, 2, 1, 2]), Encoder { skipped: 3, ..STILL });
        // Other lines do not turn it, and it stands where none of its own changes.
        assert_eq!(turned(&[4, 0, 5, 1, 0x83]), Encoder { position: 2, forward: 2, ..STILL });
        assert_eq!(turned(&[7; 100]), STILL);
        for few in [&[][..], &[0], &[3]] {
            assert_eq!(turned(few), STILL);
        }
    }
}

#[test]
fn lines_of_an_encoder_and_what_is_none() {
    // Line 15 is A and line 3 is B.
    let samples = [0, 0x8000, 0x8008, 8, 0, 0x8000];
    let capture = captured(&samples, 2);
    assert_eq!(capture.encoder(15, 3), Ok(Encoder { position: 5, forward: 5, ..STILL }));
    assert_eq!(capture.encoder(3, 15), Ok(Encoder { position: -5, backward: 5, ..STILL }));
    for line in [16, 17, 19, 31, 32, 64, 67, 1 << 16, (1 << 32) + 3, usize::MAX] {
        for (a, b) in [(line, 3), (3, line), (line, line), (line, line - 1)] {
            assert_eq!(capture.encoder(a, b), Err(Refusal::EncoderLines), "{a} {b}");
        }
    }
    for line in 0..16 {
        assert_eq!(capture.encoder(line, line), Err(Refusal::EncoderLines));
    }
    // Lines that the unit lacks are low, and are lines all the same; without samples too.
    let capture = captured(&[0, 1, 0, 1, 1, 0], 1);
    let swings = Encoder { position: 0, forward: 2, backward: 2, skipped: 0 };
    for line in 8..16 {
        assert_eq!(capture.encoder(0, line), Ok(swings));
        assert_eq!(capture.encoder(line, 0), Ok(swings));
        assert_eq!(capture.encoder(line, 23 - line), Ok(STILL));
        assert_eq!(captured(&[], 1).encoder(line, 0), Ok(STILL));
    }
    assert_eq!(captured(&[], 1).encoder(4, 4), Err(Refusal::EncoderLines));
}

/// The claims of the request, over any samples: position and counts, and the same samples in reverse order.
#[test]
fn an_encoder_read_in_reverse_is_at_the_opposite() {
    let mut rng = Rng(17);
    for round in 0..200 {
        let unit = 1 + round % 2;
        let (len, calm) = (rng.below(5000), rng.pick(&[1, 5, 300]));
        let mut samples = rng.samples(len, unit, calm);
        let (a, b) = (rng.below(4), 4 + rng.below(4));
        let capture = captured(&samples, unit);
        let turned = capture.encoder(a, b).unwrap();
        assert_eq!(turned.position, turned.forward as i64 - turned.backward as i64);
        let places = turned.forward + turned.backward + turned.skipped;
        assert_eq!(places, capture.changes(1 << a | 1 << b, 0).count());

        samples.reverse();
        let back = captured(&samples, unit).encoder(a, b).unwrap();
        let opposite = Encoder {
            position: -turned.position,
            forward: turned.backward,
            backward: turned.forward,
            skipped: turned.skipped,
        };
        assert_eq!(back, opposite);
        // B in A's place turns it the other way too.
        assert_eq!(capture.encoder(b, a), Ok(opposite));
    }
}

/// Forty turns and as many back, in pushes of all lengths: wherever they are cut, no step is lost.
#[test]
fn what_turns_forward_and_back_comes_home() {
    let mut rng = Rng(18);
    for (samples_a_step, turn) in [(1, 4000), (2, 400), (3, 400), (32, 400), (33, 120), (1024, 4)] {
        let (at, steps) = ([0u8, 1, 3, 2], 40 * turn);
        let run = |step: usize| vec![at[step % 4] | 0b100; samples_a_step];
        let forward: Vec<u8> = (0..=steps).flat_map(run).collect();
        let back: Vec<u8> = (0..=steps).rev().flat_map(run).collect();
        let mut capture = Capture::start(8, 2 * forward.len()).unwrap();
        let mut push = |capture: &mut Capture, mut rest: &[u8]| {
            while !rest.is_empty() {
                let (now, after) = rest.split_at(rest.len().min(1 + rng.below(3000)));
                capture.append(now).unwrap();
                rest = after;
            }
        };
        push(&mut capture, &forward);
        let out = Encoder { position: steps as i64, forward: steps, ..STILL };
        assert_eq!(capture.encoder(0, 1), Ok(out));
        push(&mut capture, &back);
        assert_eq!(capture.encoder(0, 1), Ok(Encoder { position: 0, backward: steps, ..out }));
    }
}

#[test]
fn the_parts_of_a_stretch_and_their_borders_add_up() {
    let mut rng = Rng(16);
    for round in 0..200 {
        let unit = 1 + round % 2;
        let (len, calm) = (1 + rng.below(70_000), rng.pick(&[1, 5, 300]));
        let samples = rng.samples(len, unit, calm);
        let capture = captured(&samples, unit);
        let a = rng.below(len);
        let b = a + 1 + rng.below(len - a);
        let mut cuts: Vec<usize> = (0..rng.below(9)).map(|_| a + rng.below(b - a)).collect();
        cuts.extend([a, b]);
        cuts.sort_unstable();
        cuts.dedup();
        let parts: u32 = cuts.windows(2).map(|part| capture.density(part[0], part[1])).sum();
        let borders = cuts[1..cuts.len() - 1].iter();
        let borders = borders.filter(|&&cut| samples[cut] != samples[cut - 1]).count() as u32;
        assert_eq!(parts + borders, capture.density(a, b), "{cuts:?}");
    }
}

/// A change at every place: none is lost between the halves of a count.
#[test]
fn as_many_changes_as_there_can_be() {
    for unit in [1, 2] {
        let len = 3 * CHUNK;
        let samples: Vec<Lines> = (0..len).map(|i| (i % 2) as Lines).collect();
        let capture = captured(&samples, unit);
        for (a, b) in [(0, len), (1, len - 1), (0, 65_536), (0, 65_537), (31, 65_569), (0, CHUNK)] {
            assert_eq!(capture.density(a, b), (b - a - 1) as u32);
        }
        assert_eq!(capture.whole(), Ok(()));
    }
}

#[test]
fn pieces_make_the_same_capture() {
    let mut rng = Rng(4);
    for unit in [1, 2] {
        let samples = rng.samples(40_000, unit, 50);
        let mut capture = Capture::start(8 * unit, samples.len()).unwrap();
        let mut rest = &plain::bytes(&samples, unit)[..];
        while !rest.is_empty() {
            let piece = rest.len().min(unit * rng.below(100));
            capture.append(&rest[..piece]).unwrap();
            rest = &rest[piece..];
        }
        assert_eq!(capture.samples(0, usize::MAX), samples);
        assert_eq!(capture.whole(), Ok(()));
    }
}

#[test]
fn samples_to_leaves_the_rest_of_its_output() {
    let capture = captured(&[1, 2, 3], 1);
    let mut output = [9; 4];
    assert_eq!(capture.samples_to(1, &mut output), 2);
    assert_eq!(output, [2, 3, 9, 9]);
}

#[test]
fn wrong_questions_are_refused_and_nothing_more() {
    for capacity in [0, capture::MOST_SAMPLES + 1, usize::MAX] {
        assert_eq!(Capture::start(8, capacity).unwrap_err(), Refusal::Capacity);
    }
    let mut capture = captured(&[1, 2, 3], 1);
    assert_eq!(capture.append(&[4]), Err(Refusal::Full));
    assert_eq!(capture.append(&[]), Ok(()));
    assert_eq!(capture.get(3), Err(Refusal::Place));
    for bad in [f64::NAN, f64::INFINITY, f64::NEG_INFINITY] {
        assert_eq!(capture.render(View { start: bad, spp: 1.0 }, 1), Err(Refusal::View));
        assert_eq!(capture.render(View { start: 0.0, spp: bad }, 1), Err(Refusal::View));
    }
    let view = View { start: 0.0, spp: 1.0 };
    for width in [MOST_PIXELS + 1, usize::MAX] {
        assert_eq!(capture.render(view, width), Err(Refusal::Width));
    }
    assert_eq!(capture.render(view, MOST_PIXELS).unwrap().len(), MOST_PIXELS);
    assert_eq!(capture.samples(0, usize::MAX), [1, 2, 3]);
}
