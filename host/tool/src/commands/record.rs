//! Raw samples are recorded through a trigger.

use super::{needed, Command};
use crate::args::{Args, Takes};
use crate::card::Card;
use crate::failure::{bad, Failure, Outcome};
use crate::given::Asked;
use crate::output::Output;
use crate::progress::Progress;
use crate::reader::Reader;
use crate::source::Source;
use crate::{interrupt, note, number, numbers, trigger, wish};
use capture::{Pushed, Recorder, Refusal, Settings, Wish, MOST_SAMPLES};
use std::ffi::OsStr;
use std::io::Write;
use std::time::Instant;

pub const COMMAND: Command = Command {
    name: "record",
    about: "Records raw samples through a trigger, and saves them as a shelf file",
    help: include_str!("../help/record.txt"),
    options: &[
        ("--unit", Takes::Value),
        ("--output", Takes::Value),
        ("--trigger", Takes::Values),
        ("--pre", Takes::Value),
        ("--limit", Takes::Value),
        ("--rate", Takes::Value),
        ("--capacity", Takes::Value),
        ("--grant", Takes::Refused("raw samples are not given to mills")),
    ],
    reads: false,
    run,
};

/// Bytes that are read at once, whole samples of either unit.
const BLOCK: usize = 1 << 18;

/// How the input was used up.
enum End {
    /// The limit is reached.
    Complete,
    /// There is no more.
    Input,
    /// The capacity is full, and there is more.
    Full,
}

fn run(args: &Args, out: &mut dyn Write) -> Result<Outcome, Failure> {
    let unit = needed(args.read_value("--unit", number::unit)?, "--unit 1 or --unit 2")?;
    let path = needed(args.path("--output"), "-o FILE")?;
    let rate = args.read_value("--rate", number::rate)?;
    let mut recorder = start(args, unit, rate)?;
    let mut source = Source::open(args.file().unwrap_or(OsStr::new("-")))?;
    let output = Output::open(path)?;

    interrupt::listen();
    let (read, end) = record(&mut recorder, &mut source, unit)?;
    if interrupt::came() {
        note("record", &format!("stopped after {read} samples"));
    }
    if recorder.is_armed() {
        note(
            "record",
            &format!("{read} samples read, and the trigger did not fire: nothing is saved"),
        );
        return Ok(Outcome::No);
    }
    if recorder.capture().is_empty() {
        note("record", &format!("{}: no samples: nothing is saved", source.name));
        return Ok(Outcome::No);
    }
    let (limit, stored) = (recorder.limit(), recorder.capture().len());
    match end {
        End::Complete => {}
        End::Input if limit > 0 => {
            note("record", &format!("the input ends {} samples before the limit", limit - stored));
        }
        End::Input => {}
        End::Full => {
            note(
                "record",
                &format!("the capacity is full after {stored} samples; the rest is left out"),
            );
        }
    }
    let capture = recorder.into_capture();
    let is_standard = output.is_standard();
    output.write(out, |file| capture.write_to(file).map(|_| ()))?;
    if !is_standard {
        numbers::print(
            &Asked::new(Reader::Service(&capture), &Card { rate, ..Card::default() }),
            out,
        )?;
    }
    Ok(Outcome::of(!matches!(end, End::Full)))
}

/// Starts a recorder as the options say.
fn start(args: &Args, unit: usize, rate: Option<u64>) -> Result<Recorder, Failure> {
    let limit = args.read_value("--limit", number::whole)?.unwrap_or(0);
    let capacity = args.read_value("--capacity", number::whole)?;
    // Memory that is not used costs nothing, so without a limit there is room for all that a capture can hold.
    let capacity = capacity.unwrap_or(if limit > 0 { limit } else { MOST_SAMPLES });
    let mut settings = Settings::new(8 * unit, capacity).limit(limit).rate(rate.unwrap_or(0));
    for text in args.texts("--trigger") {
        let text = text?;
        let terms = trigger::read(text, unit, &Default::default())
            .map_err(|what| bad(format!("--trigger {text}: {what}")))?;
        settings = settings.terms(&terms);
    }
    if let Some(wish) = args.read_value("--pre", wish::read)? {
        if !args.flag("--trigger") {
            return Err(bad("--pre goes with --trigger"));
        }
        if matches!(wish, Wish::Seconds(_)) && rate.is_none() {
            return Err(bad("--pre in seconds needs --rate"));
        }
        if let Some(other) = wish::counts_as(wish) {
            note("record", &format!("--pre counts as {other}"));
        }
        settings = settings.pretrigger(wish);
    }
    let recorder =
        Recorder::start(&settings).map_err(|refusal| bad(format!("the settings are {refusal}")))?;
    if recorder.is_pretrigger_cut() {
        note("record", &format!("--pre is cut to {} samples", recorder.pretrigger()));
    }
    Ok(recorder)
}

/// Pushes what is read, and says how many samples were read and how it ended.
fn record(
    recorder: &mut Recorder,
    source: &mut Source,
    unit: usize,
) -> Result<(usize, End), Failure> {
    let mut block = vec![0; BLOCK];
    let mut read = 0;
    // Bytes of a sample whose rest is still to come: a push would drop them.
    let mut begun = 0;
    let mut progress = Progress::new(Instant::now());
    loop {
        let count = begun + source.some(&mut block[begun..])?;
        if count == begun {
            if begun > 0 {
                note(
                    "record",
                    &format!("{}: the last byte is half a sample, and is dropped", source.name),
                );
            }
            return Ok((read, End::Input));
        }
        begun = count % unit;
        read += count / unit;
        match push(recorder, &block[..count - begun], unit)? {
            Some(Pushed::GoingOn) => {}
            Some(Pushed::Complete) => return Ok((read, End::Complete)),
            None => return Ok((read, End::Full)),
        }
        block.copy_within(count - begun..count, 0);
        if progress.is_due(Instant::now()) {
            let state = if recorder.is_armed() {
                "waiting for the trigger".into()
            } else {
                format!("{} recorded", recorder.capture().len())
            };
            note("record", &format!("{read} samples read, {state}"));
        }
    }
}

/// Pushes whole samples, or as many of them as there is room for; none where that is not all.
fn push(recorder: &mut Recorder, mut bytes: &[u8], unit: usize) -> Result<Option<Pushed>, Failure> {
    let mut piece = bytes.len() / unit;
    let mut pushed = Pushed::GoingOn;
    while !bytes.is_empty() {
        let (head, rest) = bytes.split_at((piece * unit).min(bytes.len()));
        match recorder.push(head) {
            Ok(answer) => (pushed, bytes) = (answer, rest),
            // A refused push has changed nothing: half of it may fit.
            Err(Refusal::Full) if head.len() > unit => piece = head.len() / unit / 2,
            Err(Refusal::Full) => return Ok(None),
            Err(refusal) => return Err(refusal.into()),
        }
    }
    Ok(Some(pushed))
}

#[cfg(test)]
mod tests {
    use super::*;
    use capture::Condition;

    #[test]
    fn a_full_capture_holds_as_much_as_fits() {
        for len in 1..40 {
            let samples: Vec<u8> = (0..len).map(|i| i / 3 % 2).collect();
            for capacity in 1..20 {
                let mut recorder = Recorder::start(&Settings::new(8, capacity)).unwrap();
                let fits = samples.len() <= capacity;
                let pushed = push(&mut recorder, &samples, 1).unwrap();
                assert_eq!(pushed, fits.then_some(Pushed::GoingOn));
                let stored = recorder.into_capture().raw(0).to_vec();
                assert_eq!(stored, samples[..samples.len().min(capacity)]);
            }
        }
    }

    #[test]
    fn a_trigger_in_a_block_that_does_not_fit_fires_all_the_same() {
        let settings =
            Settings::new(8, 5).term(0, Condition::Rising).rate(2).pretrigger(Wish::Seconds(1.0));
        let mut recorder = Recorder::start(&settings).unwrap();
        let samples = [0, 2, 4, 6, 8, 1, 3, 5, 7, 9, 11, 13];
        assert_eq!(push(&mut recorder, &samples, 1), Ok(None));
        assert_eq!(recorder.capture().mark(), Some(2));
        assert_eq!(recorder.capture().raw(0), [6, 8, 1, 3, 5]);
    }
}
