//! Times as people write them, and the places that they stand for at a rate.

use crate::number;
use crate::reader::Place;

/// Names of time, and their powers of ten in a second. `s` is last, since the others end with it.
pub const NAMES: [(&str, u32); 4] = [("ms", 3), ("us", 6), ("ns", 9), ("s", 0)];

/// What stands before a name of time, and that name's power of ten.
pub fn split(text: &str) -> Option<(&str, u32)> {
    NAMES.iter().find_map(|&(name, power)| Some((text.strip_suffix(name)?, power)))
}

/// How many samples a time is at a rate, to the nearest, halves up; none where the text names no time.
pub fn samples(text: &str, rate: u64) -> Option<Result<Place, String>> {
    let (number, power) = split(text)?;
    Some(read(number, power, rate))
}

fn read(number: &str, power: u32, rate: u64) -> Result<Place, String> {
    let (whole, part) = number.split_once('.').unwrap_or((number, ""));
    if number.ends_with('.') || part.contains('.') {
        return Err("not a time".into());
    }
    let digits = [whole, part].concat();
    let value = number::whole(&digits).map_err(|_| "not a time")? as u128;
    let below = 10u128.checked_pow(power + part.len() as u32).ok_or("not a time")?;
    let product = value.checked_mul(rate.into()).ok_or("too far")?;
    Place::try_from((product + below / 2) / below).map_err(|_| "too far".into())
}

/// The time of a place at a rate, in seconds, with so many digits that it is read as this place again.
pub fn written(place: Place, rate: u64) -> String {
    let digits = (0..).find(|&digits| 10u128.pow(digits) >= rate.into()).unwrap_or(0);
    let (sign, samples) = (if place < 0 { "-" } else { "" }, place.unsigned_abs());
    let (rate, below) = (u128::from(rate), 10u128.pow(digits));
    let parts = (samples % rate * below + rate / 2) / rate;
    let (seconds, parts) = (samples / rate + parts / below, parts % below);
    let part = format!("{parts:0width$}", width = digits as usize);
    let part = if digits == 0 { "" } else { part.trim_end_matches('0') };
    let point = if part.is_empty() { "" } else { "." };
    format!("{sign}{seconds}{point}{part}s")
}

#[cfg(test)]
mod tests {
    use super::*;
    use crate::number::MOST_RATE;

    #[test]
    fn times_are_places_at_a_rate() {
        for (text, rate, place) in [
            ("0s", 1, 0),
            ("100ms", 10_000, 1000),
            ("0.1s", 10_000, 1000),
            ("2s", 24_000_000, 48_000_000),
            ("1.5us", 1_000_000, 2),
            ("1.49us", 1_000_000, 1),
            ("10ns", 1_000_000_000, 10),
            ("0.5s", 1, 1),
            ("0.4999s", 1, 0),
            (".5s", 10, 5),
        ] {
            assert_eq!(samples(text, rate), Some(Ok(place)), "{text} {rate}");
        }
        for text in ["", "7", "mark", "end", "1m", "S"] {
            assert_eq!(samples(text, 10), None, "{text}");
        }
        for text in ["s", ".s", "1.s", "1.2.3s", "-1s", "+1s", "1 s", "xms", "1e3s"] {
            assert_eq!(samples(text, 10), Some(Err("not a time".into())), "{text}");
        }
        let far = format!("{}s", u64::MAX);
        assert_eq!(samples(&far, 10), Some(Ok(10 * Place::from(u64::MAX))));
    }

    #[test]
    fn a_written_time_is_read_as_its_place() {
        for rate in [1, 2, 3, 7, 10, 999, 1000, 1001, 10_000, 24_000_000, 1_000_000_000, MOST_RATE]
        {
            let near = [0, 1, 2, 3, 5, 999, 1000, 1001, 67_108_863, rate / 2, rate - 1, rate];
            for place in near.map(Place::from) {
                let text = written(place, rate);
                assert_eq!(samples(&text, rate), Some(Ok(place)), "{text} {rate}");
                if place > 0 {
                    assert_eq!(written(-place, rate), format!("-{text}"));
                }
            }
        }
        assert_eq!(written(251_644, 10_000), "25.1644s");
        assert_eq!(written(250_000, 10_000), "25s");
        assert_eq!(written(1, 24_000_000), "0.00000004s");
        assert_eq!(written(2, 3), "0.7s");
        assert_eq!(written(0, 1), "0s");
    }
}
