//! The demonstration: a scanner frame, recorded through a trigger and shown.

use super::Command;
use crate::args::{Args, Takes};
use crate::card::Card;
use crate::failure::{bad, Failure, Outcome};
use crate::frame::{self, DRIVE, DRIVE_STARTS, NAMES, RATE, SAMPLES, TURN, TURNER_ENCODER};
use crate::given::Asked;
use crate::names::Names;
use crate::output::Output;
use crate::reader::{Place, Reader};
use crate::text::{self, Style};
use crate::wave::Wave;
use crate::{lines, numbers};
use capture::{Capture, Condition, Encoder, Lines, Pushed, Recorder, Settings, Wish};
use std::io::Write;

pub const COMMAND: Command = Command {
    name: "demo",
    about: "Makes up a scanner frame, records it through a trigger and shows it",
    help: include_str!("../help/demo.txt"),
    options: &[("--output", Takes::Value), ("--raw", Takes::Value), ("--ascii", Takes::Nothing)],
    reads: false,
    run,
};

/// Samples in a push, as a device might deliver them.
const PUSH: usize = 4096;

/// Samples wanted, and the part of them before the trigger.
const LIMIT: usize = 1_000_000;
const BEFORE: f64 = 0.25;

/// The stretch that is drawn, from the mark, and its width.
const BEFORE_MARK: Place = 1_000;
const AFTER_MARK: Place = 3_500;
const WIDTH: usize = 72;

/// The lines that are drawn.
const SHOWN: [u8; 10] = [0, 1, 2, 3, 8, 9, 11, 12, 14, 15];

fn run(args: &Args, out: &mut dyn Write) -> Result<Outcome, Failure> {
    if args.file().is_some() {
        return Err(bad("the demonstration reads no file; -o FILE saves its capture"));
    }
    let (output, raw) = (file_behind(args, "--output")?, file_behind(args, "--raw")?);

    let samples: Vec<Lines> = (0..SAMPLES).map(frame::sample).collect();
    let bytes: Vec<u8> = samples.iter().flat_map(|sample| sample.to_le_bytes()).collect();
    let capture = record(&bytes)?;
    // Saved before anything is printed: who reads that may not read to its end.
    if let Some(output) = output {
        output.write(out, |to| capture.write_to(to).map(|_| ()))?;
    }
    if let Some(raw) = raw {
        raw.write(out, |to| to.write_all(&bytes))?;
    }

    writeln!(out, "A scanner frame: four heads, two encoders and a log turner on 16 lines.")?;
    writeln!(out, "{SAMPLES} samples went by in pushes of {PUSH}. The recorder waited for the turner's drive,")?;
    writeln!(out, "{DRIVE}=rising, and kept {LIMIT} of them, a quarter from before that:\n")?;
    let card = Card { rate: Some(RATE), ..Card::default() };
    numbers::print(&Asked::new(Reader::Service(&capture), &card), out)?;
    writeln!(out)?;
    draw(&capture, args.flag("--ascii"), out)?;
    writeln!(out)?;
    let found = search(&capture, out)?;
    let turned = replay(&capture, out)?;

    // The same by hand: what the trigger has to keep of the frame, looked at sample by sample.
    let kept = &samples[DRIVE_STARTS - LIMIT / 4..][..LIMIT];
    let agrees = capture.samples(0, capture.len()) == kept
        && found == scan(kept)
        && turned == count(kept)
        && capture.whole().is_ok();
    let verdict =
        if agrees { "finds the same places and the same steps" } else { "does not agree" };
    writeln!(out, "A plain scan of all {LIMIT} samples {verdict}.")?;
    Ok(Outcome::of(agrees && turned.position == 0))
}

/// The file to write that an option names.
fn file_behind(args: &Args, name: &str) -> Result<Option<Output>, Failure> {
    let output = args.path(name).map(Output::open).transpose()?;
    if output.as_ref().is_some_and(Output::is_standard) {
        return Err(bad(format!("{name} -: standard output is taken; name a file")));
    }
    Ok(output)
}

fn record(bytes: &[u8]) -> Result<Capture, Failure> {
    let settings = Settings::new(16, LIMIT)
        .limit(LIMIT)
        .term(DRIVE, Condition::Rising)
        .pretrigger(Wish::Fraction(BEFORE));
    let mut recorder = Recorder::start(&settings)?;
    for push in bytes.chunks(2 * PUSH) {
        if recorder.push(push)? == Pushed::Complete {
            break;
        }
    }
    Ok(recorder.into_capture())
}

fn draw(capture: &Capture, ascii: bool, out: &mut dyn Write) -> Result<(), Failure> {
    let reader = Reader::Service(capture);
    let mark = reader.mark().unwrap_or(0);
    let wave = Wave::new(&reader, (mark - BEFORE_MARK).max(0), mark + AFTER_MARK, WIDTH)?;
    let Some(wave) = wave else { return Ok(()) };
    let shown = SHOWN.map(|line| (line, format!("{line:>2} {}", NAMES[usize::from(line)])));
    let style = if ascii { Style::Ascii } else { Style::Boxes };
    Ok(text::draw(out, &wave, &shown, reader.mark(), style, WIDTH)?)
}

/// Finds the places at which the turner's encoder moves, by hops over the summaries.
fn search(capture: &Capture, out: &mut dyn Write) -> Result<Vec<usize>, Failure> {
    let mask = lines::mask(&TURNER_ENCODER);
    let mark = capture.mark().unwrap_or(0);
    let lines = lines::written(mask, &Names::default());
    if let Some(first) = capture.next_change(mask, mark).found {
        let after = first - mark;
        writeln!(out, "The turner's encoder, lines {lines}, first moves at {first}, {after} samples after the mark.")?;
    }
    let places: Vec<usize> = capture.changes(mask, 0).collect();
    writeln!(
        out,
        "It moves {} times up to the end, most steps {} samples apart.",
        places.len(),
        usual_gap(&places)
    )?;
    Ok(places)
}

/// Replays the turner's encoder, and says whether the log came home.
fn replay(capture: &Capture, out: &mut dyn Write) -> Result<Encoder, Failure> {
    let [a, b] = TURNER_ENCODER.map(usize::from);
    let turned = capture.encoder(a, b)?;
    let Encoder { position, forward, backward, skipped } = turned;
    let turns = |steps: usize| steps as f64 / TURN as f64;
    writeln!(
        out,
        "{forward} of these are steps forward, {} turns, {backward} backward, {} turns, and {skipped} skips.",
        turns(forward),
        turns(backward)
    )?;
    match position {
        0 => writeln!(out, "The log came home: its position is 0.")?,
        _ => writeln!(out, "The log did not come home: its position is {position}.")?,
    }
    Ok(turned)
}

/// The gap that most neighbours have.
fn usual_gap(places: &[usize]) -> usize {
    let mut gaps: Vec<usize> = places.windows(2).map(|pair| pair[1] - pair[0]).collect();
    gaps.sort_unstable();
    let runs = gaps.chunk_by(|a, b| a == b);
    runs.max_by_key(|run| run.len()).map_or(0, |run| run[0])
}

/// The same places, by looking at every sample.
fn scan(samples: &[Lines]) -> Vec<usize> {
    let mask = lines::mask(&TURNER_ENCODER);
    (1..samples.len()).filter(|&i| (samples[i] ^ samples[i - 1]) & mask != 0).collect()
}

/// The same steps, by looking at every sample: where it stands in the order 00, 10, 11, 01, and where the one before does.
fn count(samples: &[Lines]) -> Encoder {
    let stands = |sample: Lines| {
        let [a, b] = TURNER_ENCODER.map(|line| sample >> line & 1);
        [[0, 3], [1, 2]][usize::from(a)][usize::from(b)]
    };
    let mut turned = Encoder::default();
    for pair in samples.windows(2) {
        match (stands(pair[1]) + 4 - stands(pair[0])) % 4 {
            0 => {}
            1 => turned.forward += 1,
            2 => turned.skipped += 1,
            _ => turned.backward += 1,
        }
    }
    turned.position = turned.forward as i64 - turned.backward as i64;
    turned
}
