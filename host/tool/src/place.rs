//! Places of a capture as people write them.

use crate::args::Args;
use crate::failure::Failure;
use crate::given::Asked;
use crate::number;
use crate::reader::{Place, Reader};
use crate::time;
use capture::Refusal;

const FORM: &str = "a place is a number, mark or end, as in mark+10";

/// The place behind an option.
pub fn asked(args: &Args, name: &'static str, asked: &Asked) -> Result<Option<Place>, Failure> {
    args.read_value(name, |text| read(text, &asked.reader, asked.rate))
}

/// A number, a time at the rate, `mark` or `end`; behind one of these two `+` or `-` and a number or a time. A mill's number
/// may be negative.
fn read(text: &str, reader: &Reader, rate: Option<u64>) -> Result<Place, String> {
    let place = if let Some(rest) = text.strip_prefix("mark") {
        reader.mark().ok_or("this capture has no mark")? + offset(rest, rate)?
    } else if let Some(rest) = text.strip_prefix("end") {
        reader.end() + offset(rest, rate)?
    } else {
        match (reader, text.strip_prefix('-')) {
            (Reader::Mill(_), Some(text)) => count(text, rate).map(|count| -count),
            _ => count(text, rate),
        }
        .map_err(|what| if what == NO_NUMBER { FORM.into() } else { what })?
    };
    if place > reader.most() {
        return Err("too far".into());
    }
    if place < reader.first() {
        return Err(match reader {
            Reader::Service(_) => "before the first sample".into(),
            Reader::Mill(_) => Refusal::Before.to_string(),
        });
    }
    Ok(place)
}

/// What stands behind `mark` or `end`.
fn offset(text: &str, rate: Option<u64>) -> Result<Place, String> {
    match text.split_at_checked(1) {
        None if text.is_empty() => Ok(0),
        Some(("+", text)) => count(text, rate),
        Some(("-", text)) => Ok(-count(text, rate)?),
        _ => Err(FORM.into()),
    }
}

/// A count of samples: a number, or a time.
fn count(text: &str, rate: Option<u64>) -> Result<Place, String> {
    let is_time = text.starts_with(|c: char| c.is_ascii_digit() || c == '.');
    match (rate, number::whole(text)) {
        (_, Ok(number)) => Ok(number as Place),
        (Some(rate), _) if is_time && time::split(text).is_some() => {
            time::samples(text, rate).unwrap_or_else(|| Err(NO_NUMBER.into()))
        }
        (None, _) if is_time && time::split(text).is_some() => Err(NO_RATE.into()),
        (_, Err(what)) => Err(what),
    }
}

/// What [`number::whole`] says of other text.
const NO_NUMBER: &str = "not a whole number";

/// What is said where a time is asked for and there is no rate.
const NO_RATE: &str = "times need a rate: a card that has one, or --rate HZ where that is taken";

#[cfg(test)]
mod tests {
    use super::read as read_at;
    use super::*;
    use crate::file::captured;
    use capture::Capture;

    fn read(text: &str, reader: &Reader) -> Result<Place, String> {
        read_at(text, reader, None)
    }

    fn marked(mark: Option<usize>) -> Capture {
        captured(&[0; 20], mark)
    }

    #[test]
    fn places() {
        let capture = marked(Some(7));
        for (text, place) in [
            ("0", 0),
            ("18446744073709551615", usize::MAX as Place),
            ("mark", 7),
            ("mark+3", 10),
            ("mark-7", 0),
            ("end", 20),
            ("end-1", 19),
            ("end+1", 21),
        ] {
            assert_eq!(read(text, &Reader::Service(&capture)), Ok(place));
        }
    }

    #[test]
    fn places_of_a_mill() {
        let capture = marked(Some(7));
        let mill = Reader::Mill(capture.mill(1));
        for (text, place) in [
            ("0", 0),
            ("-7", -7),
            ("9223372036854775807", i64::MAX.into()),
            ("mark", 0),
            ("mark+3", 3),
            ("mark-7", -7),
            ("end", 13),
            ("end-20", -7),
        ] {
            assert_eq!(read(text, &mill), Ok(place));
        }
        let before = "refused, 13: the place is before the first sample";
        for (text, what) in [
            ("-8", before),
            ("mark-8", before),
            ("end-21", before),
            ("-18446744073709551615", before),
            ("9223372036854775808", "too far"),
            ("end+9223372036854775807", "too far"),
            ("18446744073709551616", "above 18446744073709551615"),
            ("-", FORM),
            ("--1", FORM),
            ("-mark", FORM),
        ] {
            assert_eq!(read(text, &mill).unwrap_err(), what, "{text}");
        }
        let capture = marked(None);
        let mill = Reader::Mill(capture.mill(1));
        assert_eq!(read("mark", &mill).unwrap_err(), "this capture has no mark");
        assert_eq!(read("end", &mill), Ok(20));
    }

    #[test]
    fn what_is_wrong_is_said() {
        let capture = marked(Some(7));
        for (text, what) in [
            ("", FORM),
            ("-1", FORM),
            ("marks", FORM),
            ("mark*2", FORM),
            ("mark€", FORM),
            ("mark+", "not a whole number"),
            ("mark-8", "before the first sample"),
            ("mark+18446744073709551615", "too far"),
            ("18446744073709551616", "above 18446744073709551615"),
        ] {
            assert_eq!(read(text, &Reader::Service(&capture)).unwrap_err(), what, "{text}");
        }
        let capture = marked(None);
        let service = Reader::Service(&capture);
        assert_eq!(read("mark", &service).unwrap_err(), "this capture has no mark");
    }

    #[test]
    fn times_are_places_where_there_is_a_rate() {
        let capture = marked(Some(7));
        let (service, mill) = (Reader::Service(&capture), Reader::Mill(capture.mill(1)));
        for (text, place) in [("1.5ms", 2), ("mark+2ms", 9), ("mark-7ms", 0), ("end-.01s", 10)] {
            assert_eq!(read_at(text, &service, Some(1000)), Ok(place), "{text}");
            assert_eq!(read(text, &service).unwrap_err(), NO_RATE, "{text}");
        }
        for (text, place) in [("1.5ms", 2), ("-7ms", -7), ("mark+2ms", 2), ("end-13ms", 0)] {
            assert_eq!(read_at(text, &mill, Some(1000)), Ok(place), "{text}");
        }
        assert_eq!(
            read_at("mark-8ms", &service, Some(1000)).unwrap_err(),
            "before the first sample"
        );
        assert_eq!(read_at("99999999999999999999s", &service, Some(1)).unwrap_err(), "not a time");
        assert_eq!(read_at("9999999999999999999s", &service, Some(1000)).unwrap_err(), "too far");
        assert_eq!(read_at("1.2.3s", &service, Some(1000)).unwrap_err(), "not a time");
        for text in ["apples", "ms", "-1ms", "marks", "mark+ms", "1 ms"] {
            let what = read_at(text, &service, Some(1000)).unwrap_err();
            assert!(what == FORM || what == NO_NUMBER || what == "not a time", "{text} {what}");
        }
    }
}
