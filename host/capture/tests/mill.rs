//! A mill's reader answers as a plain scan over the samples does, moved by the mark and cut down to its grant, and learns
//! nothing of other lines.

mod plain;

use capture::{
    Burst, Capture, Condition, Counted, Encoder, Extent, Lines, ListedBurst, Mill, MillNode, Pixel,
    Recorder, Refusal, Settings, View, Wish, MOST_PIXELS,
};
use plain::walk::Walk;
use plain::Rng;
use std::fmt::Write;

fn captured(samples: &[Lines], unit: usize, capacity: usize) -> Capture {
    let mut capture = Capture::start(8 * unit, capacity).unwrap();
    capture.append(&plain::bytes(samples, unit)).unwrap();
    capture
}

fn reader(capture: &Capture, grant: Lines, mark: Option<usize>) -> Mill<'_> {
    match mark {
        Some(mark) => capture.mill_with_mark(grant, mark).unwrap(),
        None => capture.mill(grant),
    }
}

/// A place of the run or a little beside it, as a mill counts, or one of the far ends.
fn place(rng: &mut Rng, len: usize, mark: usize) -> i64 {
    match rng.below(12) {
        0 => rng.pick(&[i64::MIN, i64::MIN + 1, -1, 0, 1, i64::MAX - 1, i64::MAX]),
        1 => rng.below(3) as i64 - mark as i64 - 1,
        2 => len as i64 - mark as i64 - 1 + rng.below(3) as i64,
        _ => rng.below(len + 5) as i64 - mark as i64 - 2,
    }
}

/// A mask, most often within the grant.
fn mask(rng: &mut Rng, grant: Lines) -> Lines {
    match rng.below(6) {
        0 => rng.number() as Lines,
        1 => grant,
        2 => 1 << rng.below(16),
        _ => grant & rng.number() as Lines,
    }
}

/// Two lines of an encoder, of which one may be none, or both the same.
fn encoder_lines(rng: &mut Rng) -> (usize, usize) {
    let mut line = || match rng.below(8) {
        0 => rng.pick(&[16, 64, usize::MAX]),
        1 => rng.below(16),
        _ => rng.below(3),
    };
    (line(), line())
}

fn view(rng: &mut Rng, len: usize) -> View {
    let start = (rng.below(2 * len + 10) as f64 - len as f64) / rng.pick(&[1.0, 2.0, 3.0, 7.5]);
    View { start, spp: rng.pick(&[0.0, 0.1, 0.5, 1.0, 1.7, 32.0, 1000.3, -2.5, 1e300]) }
}

/// The place of the run that a mill's place is.
fn run_place(place: i64, mark: usize) -> Result<usize, Refusal> {
    usize::try_from(i128::from(place) + mark as i128).map_err(|_| Refusal::Before)
}

/// Asks a mill everything, some times over.
fn ask(rng: &mut Rng, s: &[Lines], mill: Mill, mark: Option<usize>, times: usize) {
    let grant = mill.grant();
    let (len, origin, walk) = (s.len(), mark.unwrap_or(0), Walk::over(s));
    let seen = |place: usize| place as i64 - origin as i64;
    let extent = Extent { first: seen(0), end: seen(len), marked: mark.is_some() };
    assert_eq!(mill.extent(), extent);
    for _ in 0..times {
        let (a, b) = (place(rng, len, origin), place(rng, len, origin));
        let (from, to) = (run_place(a, origin), run_place(b, origin));
        let got = from.and_then(|i| s.get(i).map(|v| v & grant).ok_or(Refusal::Place));
        assert_eq!(mill.get(a), got, "get {a}");

        let count = rng.pick(&[0, 1, 5, usize::MAX]);
        let samples = from.map(|i| {
            let part = &s[i.min(len)..i.saturating_add(count).min(len)];
            part.iter().map(|v| v & grant).collect::<Vec<_>>()
        });
        assert_eq!(mill.samples(a, count), samples, "samples {a} {count}");

        let node = from.and_then(|a| Ok(plain::summary(s, a, to?)));
        let node = node.map(|node| {
            node.map(|node| {
                let [first, last, toggles] =
                    [node.first, node.last, node.toggles].map(|v| v & grant);
                MillNode { first, last, toggles }
            })
        });
        assert_eq!(mill.summary(a, b), node, "summary {a} {b}");

        let mask = mask(rng, grant);
        let from = if mask & !grant == 0 { from } else { Err(Refusal::Grant) };
        let next = from.map(|i| walk.next_change(mask, i).map(seen));
        assert_eq!(mill.next_change(mask, a), next, "next {mask} {a}");
        let prev = from.map(|i| walk.prev_change(mask, i).map(seen));
        assert_eq!(mill.prev_change(mask, a), prev, "prev {mask} {a}");
        let (gap, tolerance, budget) = (rng.below(60), rng.below(40), rng.below(5));
        let burst = from.map(|i| {
            walk.burst_at(mask, i, gap, tolerance, budget).map(|burst| Burst {
                first: seen(burst.first),
                last: seen(burst.last),
                jumps_at_end: burst.jumps_at_end,
                jumps_at_start: burst.jumps_at_start,
            })
        });
        let asked = mill.burst_at(mask, a, gap, tolerance, budget);
        assert_eq!(asked, burst, "burst {mask} {a} {gap} {tolerance} {budget}");
        match mill.bursts(mask, gap) {
            Ok(asked) => {
                let listed = |burst: ListedBurst| ListedBurst {
                    first: seen(burst.first),
                    last: seen(burst.last),
                    changes: burst.changes,
                };
                let bursts = plain::bursts(s, mask, gap).into_iter().map(listed);
                assert!(mask & !grant == 0 && asked.eq(bursts), "bursts {mask} {gap}");
            }
            Err(refusal) => assert!(mask & !grant != 0 && refusal == Refusal::Grant),
        }

        let (line_a, line_b) = encoder_lines(rng);
        let turned = if line_a == line_b || line_a > 15 || line_b > 15 {
            Err(Refusal::EncoderLines)
        } else if (1 << line_a | 1 << line_b) & !grant != 0 {
            Err(Refusal::Grant)
        } else {
            Ok(plain::encoder(s, line_a, line_b))
        };
        assert_eq!(mill.encoder(line_a, line_b), turned, "encoder {line_a} {line_b}");

        let (view, width) = (view(rng, len), rng.below(20));
        let pixels = plain::render_from(s, origin, view, width);
        let cut = |p: &Pixel| Pixel { first: p.first & grant, toggles: p.toggles & grant };
        let pixels: Vec<Pixel> = pixels.iter().map(cut).collect();
        assert_eq!(mill.render(view, width), Ok(pixels), "{view:?} {width}");
    }
}

#[test]
fn captures_answer_as_plain_scans_moved_and_cut() {
    let mut rng = Rng(11);
    for round in 0..400 {
        let unit = 1 + round % 2;
        let (len, calm) = (rng.pick(&[0, 1, 2, 40, 300, 2500]), rng.pick(&[1, 3, 40]));
        let s = rng.samples(len, unit, calm);
        let capture = captured(&s, unit, len.max(1));
        let somewhere = rng.below(len + 1);
        let mark = rng.pick(&[None, Some(0), Some(len), Some(somewhere), Some(somewhere)]);
        let grant = rng.pick(&[0, 1, 0xff, 0xffff, 0xaaaa, 0x0f0f]);
        ask(&mut rng, &s, reader(&capture, grant, mark), mark, 20);
    }
}

#[test]
fn recordings_count_from_the_sample_that_fired() {
    let mut rng = Rng(12);
    for round in 0..200 {
        let unit = 1 + round % 2;
        let all = rng.samples(400, unit, 30);
        let settings = Settings::new(8 * unit, 1000)
            .term(0, Condition::Edge)
            .limit(1 + rng.below(300))
            .pretrigger(Wish::Fraction(0.4));
        let mut recorder = Recorder::start(&settings).unwrap();
        for push in plain::bytes(&all, unit).chunks(50 * unit) {
            recorder.push(push).unwrap();
            let capture = recorder.capture();
            let s = capture.samples(0, capture.len());
            let grant = rng.number() as Lines;
            ask(&mut rng, &s, capture.mill(grant), capture.mark(), 2);
        }
    }
}

/// All that a mill is told, over questions that follow from the seed.
fn told(mill: Mill, seed: u64) -> String {
    let mut rng = Rng(seed);
    let extent = mill.extent();
    let (len, mark) = ((extent.end - extent.first) as usize, -extent.first as usize);
    let mut told = format!("{mill:?}");
    for _ in 0..20 {
        let (a, b) = (place(&mut rng, len, mark), place(&mut rng, len, mark));
        let mask = mask(&mut rng, mill.grant());
        let view = view(&mut rng, len);
        let (count, width) = (rng.below(60), rng.below(20));
        write!(told, "{:?} {:?}", mill.get(a), mill.samples(a, count)).unwrap();
        write!(told, "{:?} {:?}", mill.summary(a, b), mill.render(view, width)).unwrap();
        write!(told, "{:?} {:?}", mill.next_change(mask, a), mill.prev_change(mask, a)).unwrap();
        let (line_a, line_b) = encoder_lines(&mut rng);
        let (burst, turned) = (mill.burst_at(mask, a, count, 9, 3), mill.encoder(line_a, line_b));
        let bursts = mill.bursts(mask, count).map(|bursts| bursts.take(len).collect::<Vec<_>>());
        write!(told, "{burst:?} {bursts:?} {turned:?}").unwrap();
    }
    told
}

#[test]
fn captures_alike_in_granted_lines_look_alike() {
    let mut rng = Rng(13);
    for _ in 0..300 {
        let (len, calm) = (rng.pick(&[0, 1, 40, 1100]), rng.pick(&[1, 4, 30]));
        // Line 0 to 7 of either unit may be granted, so that the units may differ.
        let grant = rng.number() as Lines & 0xff;
        let s = rng.samples(len, 1, calm);
        let other = rng.samples(len, 2, calm);
        let alike: Vec<Lines> =
            s.iter().zip(&other).map(|(v, other)| v & grant | other & !grant).collect();
        let (one, two) = (captured(&s, 1, len + 1), captured(&alike, 2, len + 70));
        let mark = rng.pick(&[None, Some(len / 3), Some(len)]);
        let seed = rng.number();
        let [one, two] = [&one, &two].map(|capture| told(reader(capture, grant, mark), seed));
        assert_eq!(one, two);
    }
}

#[test]
fn as_many_pixels_as_are_drawn_at_once() {
    let s = Rng(15).samples(3000, 2, 9);
    let capture = captured(&s, 2, 3000);
    let mill = capture.mill_with_mark(0xffff, 1234).unwrap();
    for view in [View { start: -1300.25, spp: 0.07 }, View { start: 1800.0, spp: -0.05 }] {
        let pixels = plain::render_from(&s, 1234, view, MOST_PIXELS);
        assert_eq!(mill.render(view, MOST_PIXELS), Ok(pixels));
    }
}

#[test]
fn refusals_and_their_order() {
    let capture = captured(&[0, 1, 2, 3], 1, 9);
    let mill = capture.mill_with_mark(0b01, 2).unwrap();
    assert_eq!(mill.next_change(0b10, -3), Err(Refusal::Grant));
    assert_eq!(mill.prev_change(0b11, i64::MIN), Err(Refusal::Grant));
    assert_eq!(mill.burst_at(0x8000, -3, 0, 0, 0), Err(Refusal::Grant));
    assert_eq!(mill.burst_at(0b01, -3, 0, 0, 0), Err(Refusal::Before));
    assert_eq!(mill.bursts(0b10, 0).err(), Some(Refusal::Grant));
    // A line that the unit lacks is beyond the grant all the same, and may be granted.
    let none = Counted { found: None, read: 3 };
    assert_eq!(capture.mill(0x8001).next_change(0x8000, 0), Ok(none));
    assert_eq!(mill.samples(i64::MIN, usize::MAX), Err(Refusal::Before));
    assert_eq!(mill.samples(i64::MAX, usize::MAX), Ok(vec![]));
    assert_eq!(mill.samples(-2, usize::MAX), Ok(vec![0, 1, 0, 1]));
    let nan = View { start: f64::NAN, spp: 1.0 };
    assert_eq!(mill.render(nan, MOST_PIXELS + 1), Err(Refusal::View));
    let view = View { start: -9.0, spp: 1.0 };
    assert_eq!(mill.render(view, MOST_PIXELS + 1), Err(Refusal::Width));
    assert_eq!(mill.render(view, 1), Ok(vec![Pixel::default()]));
    // Lines that are no encoder's are refused ahead of the grant, and no place is.
    for (a, b) in [(0, 0), (1, 1), (9, 9), (0, 16), (16, 0), (1, 16), (usize::MAX, 0)] {
        assert_eq!(mill.encoder(a, b), Err(Refusal::EncoderLines));
    }
    for (a, b) in [(0, 1), (1, 0), (2, 3), (0, 15)] {
        assert_eq!(mill.encoder(a, b), Err(Refusal::Grant));
    }
    // A step forward, a skip and a step backward, wherever the mark is.
    let turned = Encoder { position: 0, forward: 1, backward: 1, skipped: 1 };
    assert_eq!(capture.mill(0b11).encoder(0, 1), Ok(turned));
    assert_eq!(capture.mill_with_mark(0b11, 2).unwrap().encoder(0, 1), Ok(turned));
    let mut output = [9; 3];
    assert_eq!(mill.samples_to(1, &mut output), Ok(1));
    assert_eq!(output, [1, 9, 9]);
    assert_eq!(mill.samples_to(-3, &mut output), Err(Refusal::Before));
    assert_eq!(output, [1, 9, 9]);
}

#[test]
fn it_shows_what_it_may_see() {
    let capture = captured(&[0, 1, 2, 3], 1, 9);
    assert_eq!(
        format!("{:?}", capture.mill_with_mark(3, 1).unwrap()),
        "Mill { grant: 3, extent: Extent { first: -1, end: 3, marked: true }, .. }"
    );
}
