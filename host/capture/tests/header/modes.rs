//! "lc_render, lc_mill_render and lc_feeder_start compute in the mode of the thread that calls them": in another mode they
//! draw other pixels and keep another count of samples, and the crate, which sets the default mode, does not.

use crate::calls::{self, EXPORTS};
use crate::given::{Given, Lent, CAPACITY, NODE};
use capture::{Capture, Pixel, Recorder, Settings, View, Wish};
use std::arch::asm;

/// The modes beside the default one, as MXCSR has them, without the flags of what has happened.
const MODES: [(&str, u32); 7] = [
    ("rounding down", 0x3f80),
    ("rounding up", 0x5f80),
    ("rounding toward zero", 0x7f80),
    ("subnormal results flushed", 0x9f80),
    ("subnormal operands read as zero", 0x1fc0),
    ("-ffast-math", 0x9fc0),
    ("rounding down, -ffast-math", 0xbfc0),
];

/// One in which the library would end the process: an inexact result traps.
const TRAPPING: (&str, u32) = ("trapping", 0x0f80);

const ROUNDING: u32 = 0x6000;
const FLAGS: u32 = 0x3f;

fn mode() -> u32 {
    let mut mode = 0u32;
    // SAFETY: it stores one number.
    unsafe { asm!("stmxcsr [{}]", in(reg) &mut mode, options(nostack, preserves_flags)) };
    mode
}

fn set(mode: u32) {
    // SAFETY: it loads one number. Between two of these no floating point is computed here.
    unsafe { asm!("ldmxcsr [{}]", in(reg) &mode, options(nostack)) };
}

/// Runs something in a mode, which it must leave as it was.
fn in_mode<T>(name: &str, other: u32, run: impl FnOnce() -> T) -> T {
    let before = mode();
    set(other);
    let answer = run();
    let after = mode();
    set(before);
    assert_eq!(after & !FLAGS, other, "{name}: the mode is left as it was");
    answer
}

const SMALLEST: f64 = 5e-324;

const VIEWS: [(f64, f64); 6] = [
    (0.1, 0.1),
    (-0.3, 0.1),
    (0.7, 0.7),
    (1.0 / 3.0, 1.0 / 3.0),
    (-SMALLEST, 0.0),
    (0.0, -SMALLEST),
];

const WIDTH: usize = 40;

/// Limits and fractions.
const FRACTIONS: [(usize, f64); 4] = [(100, 0.29), (10, 0.7), (1000, 0.001), (49, 1.0 / 49.0)];

/// Seconds, at rates.
const SECONDS: [(f64, usize); 3] = [(0.5, 3), (0.145, 100), (0.035, 100)];

/// The library's own pixels.
fn drawn(call: fn(&Lent) -> u32, start: f64, spp: f64) -> Vec<u16> {
    let given = Given { start, spp, width: WIDTH, output: 2 * WIDTH, ..Given::new() };
    let lent = Lent::new(given);
    assert_eq!(call(&lent), 0);
    // SAFETY: so many numbers were put there.
    unsafe { std::slice::from_raw_parts(lent.output, 2 * WIDTH) }.to_vec()
}

/// The library's own count of samples kept before the trigger.
fn kept(limit: usize, wish: f64, seconds: Option<usize>) -> usize {
    let given = Given {
        channels: 8,
        capacity: CAPACITY.max(limit + 1),
        limit,
        wish,
        seconds: seconds.is_some(),
        rate: seconds.unwrap_or(0),
        ring: vec![0; CAPACITY.max(limit)],
        samples: vec![0; 2000],
        levels: [32usize, 1024, 32_768, 1_048_576]
            .map(|span| vec![0; NODE * 2000usize.div_ceil(span)]),
        ..Given::new()
    };
    let lent = Lent::new(given);
    assert_eq!(calls::feeder_start(&lent), 0);
    // SAFETY: the record was put there.
    unsafe { (*lent.begun)[6] }
}

fn library_draws(call: fn(&Lent) -> u32) -> Vec<Vec<u16>> {
    VIEWS.iter().map(|&(start, spp)| drawn(call, start, spp)).collect()
}

fn library_keeps() -> Vec<usize> {
    let fractions = FRACTIONS.iter().map(|&(limit, wish)| kept(limit, wish, None));
    fractions.chain(SECONDS.iter().map(|&(wish, rate)| kept(0, wish, Some(rate)))).collect()
}

#[test]
fn the_library_computes_in_the_callers_mode() {
    let (draws, mill_draws, keeps) =
        (library_draws(calls::render), library_draws(calls::mill_render), library_keeps());
    for (name, mode) in MODES {
        assert!(in_mode(name, mode, || library_draws(calls::render)) != draws, "{name}");
        assert!(in_mode(name, mode, || library_draws(calls::mill_render)) != mill_draws, "{name}");
        if mode & ROUNDING != 0 {
            assert!(in_mode(name, mode, library_keeps) != keeps, "{name}");
        }
    }
}

#[test]
fn no_other_export_takes_a_double() {
    let take = EXPORTS.iter().filter(|(_, types)| types.iter().any(|name| name.contains("f64")));
    let names: Vec<_> = take.map(|export| export.0).collect();
    assert_eq!(names, ["lc_feeder_start", "lc_mill_render", "lc_render"]);
}

fn crate_draws(capture: &Capture) -> Vec<Vec<Pixel>> {
    let mill = capture.mill_with_mark(0b11, 5).unwrap();
    let views = VIEWS.iter().map(|&(start, spp)| View { start, spp });
    views
        .flat_map(|view| [capture.render(view, WIDTH).unwrap(), mill.render(view, WIDTH).unwrap()])
        .collect()
}

fn crate_keeps() -> Vec<usize> {
    let fractions = FRACTIONS
        .iter()
        .map(|&(limit, p)| Settings::new(8, 2000).limit(limit).pretrigger(Wish::Fraction(p)));
    let seconds = SECONDS
        .iter()
        .map(|&(t, rate)| Settings::new(8, 2000).rate(rate as u64).pretrigger(Wish::Seconds(t)));
    fractions
        .chain(seconds)
        .map(|settings| Recorder::start(&settings).unwrap().pretrigger())
        .collect()
}

#[test]
fn the_crate_computes_in_the_default_mode() {
    let mut capture = Capture::start(16, CAPACITY).unwrap();
    capture.append(&Given::new().samples[..80]).unwrap();
    let (draws, keeps) = (crate_draws(&capture), crate_keeps());
    assert_eq!(keeps, library_keeps());
    for (name, mode) in MODES.into_iter().chain([TRAPPING]) {
        assert!(in_mode(name, mode, || crate_draws(&capture)) == draws, "{name}");
        assert!(in_mode(name, mode, crate_keeps) == keeps, "{name}");
    }
}
