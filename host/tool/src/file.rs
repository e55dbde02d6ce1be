//! Captures are loaded from files.

use crate::args::Args;
use crate::failure::Failure;
use crate::note;
use crate::number;
use crate::source::Source;
use crate::sum::{Sum, Summed};
use capture::{Capture, ReadError, Refusal, MOST_SAMPLES};

/// Bytes of raw samples that are read at once, whole samples of either unit.
const PART: usize = 1 << 20;

/// The error of a disk that cannot give what is asked for.
const EIO: i32 = 5;

/// What helps where a file is damaged.
const SALVAGE: &str = "; 'logic-capture salvage' reads what is good of it";

/// Loads a capture: from a shelf file, or from raw samples where there is --unit. All its bytes are added to the sum.
pub fn load(
    command: &str,
    args: &Args,
    source: &mut Source,
    sum: Option<&mut Sum>,
) -> Result<Capture, Failure> {
    match args.read_value("--unit", number::unit)? {
        Some(unit) => {
            let bytes = raw_bytes(source, unit)?;
            sum.into_iter().for_each(|sum| sum.add(&bytes));
            load_raw(command, source, unit, &bytes)
        }
        None => load_shelf(source, sum, args.flag("--grant")),
    }
}

fn load_shelf(
    source: &mut Source,
    sum: Option<&mut Sum>,
    for_mill: bool,
) -> Result<Capture, Failure> {
    let read = match sum {
        Some(sum) => Capture::read_from(Summed { bytes: &mut *source, sum }, None),
        None => Capture::read_from(&mut *source, None),
    };
    read.map_err(|error| {
        let hint = match &error {
            // What is wrong with a file may tell of every line.
            ReadError::Refused(refusal, _) if for_mill => return source.bad(&refusal.to_string()),
            _ if for_mill => "",
            ReadError::Refused(_, Some(fault)) if fault.block == 0 => {
                "; for raw samples add --unit 1 or --unit 2"
            }
            ReadError::Refused(Refusal::File, _) => SALVAGE,
            ReadError::Stream(error) if error.raw_os_error() == Some(EIO) => SALVAGE,
            _ => "",
        };
        source.bad(&format!("{error}{hint}"))
    })
}

/// The bytes of raw samples.
fn raw_bytes(source: &mut Source, unit: usize) -> Result<Vec<u8>, Failure> {
    let mut bytes = Vec::new();
    loop {
        let read = bytes.len();
        bytes.resize(read + PART, 0);
        let count = source.full(&mut bytes[read..])?;
        bytes.truncate(read + count);
        if bytes.len() / unit > MOST_SAMPLES {
            return Err(source.bad(&format!("more than {MOST_SAMPLES} samples")));
        }
        if count < PART {
            return Ok(bytes);
        }
    }
}

fn load_raw(command: &str, source: &Source, unit: usize, bytes: &[u8]) -> Result<Capture, Failure> {
    if bytes.len() % unit != 0 {
        note(command, &format!("{}: the last byte is half a sample, and is dropped", source.name));
    }
    let mut capture = Capture::start(8 * unit, (bytes.len() / unit).max(1))?;
    capture.append(bytes)?;
    Ok(capture)
}

/// For tests: samples of unit 1, and a mark.
#[cfg(test)]
pub fn captured(samples: &[u8], mark: Option<usize>) -> Capture {
    let samples: Vec<_> = samples.iter().copied().map(capture::Lines::from).collect();
    Capture::read(&crate::plain::file::file(1, mark, &samples), None).unwrap()
}

#[cfg(test)]
mod tests {
    use super::*;
    use crate::failure::bad;
    use crate::plain::file::file;

    fn said(bytes: &[u8], for_mill: bool) -> Failure {
        load_shelf(&mut Source::of(bytes), None, for_mill).unwrap_err()
    }

    #[test]
    fn what_is_wrong_is_said() {
        let good = file(2, Some(1), &[1; 300]);
        let capture = load_shelf(&mut Source::of(&good), None, false).unwrap();
        assert_eq!((capture.len(), capture.mark()), (300, Some(1)));

        let refused = "test: refused, 16: no capture has this file";
        let block = "block 2: the file ends after 511 of its 512 bytes";
        assert_eq!(said(&good[..1535], false), bad(format!("{refused}: {block}{SALVAGE}")));
        assert_eq!(said(&good[..1535], true), bad(refused));
        let block = "block 0: the file ends after 3 of its 512 bytes";
        let raw = "for raw samples add --unit 1 or --unit 2";
        assert_eq!(said(b"abc", false), bad(format!("{refused}: {block}; {raw}")));
        assert_eq!(said(b"abc", true), bad(refused));
    }
}
