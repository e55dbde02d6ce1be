//! How much to keep from before the trigger, as people write it.

use crate::number;
use capture::Wish;

/// Names of time, longest first so that `ms` is not read as `s`, and how many go into a second.
const TIMES: [(&str, f64); 3] = [("ms", 1e3), ("us", 1e6), ("s", 1.0)];

/// `0.25`: a fraction of the limit. `0.01s`, `10ms`, `500us`: seconds.
pub fn read(text: &str) -> Result<Wish, String> {
    for (name, in_a_second) in TIMES {
        if let Some(digits) = text.strip_suffix(name) {
            return Ok(Wish::Seconds(number::real(digits)? / in_a_second));
        }
    }
    Ok(Wish::Fraction(number::real(text)?))
}

/// What a wish outside of the range counts as.
pub fn counts_as(wish: Wish) -> Option<&'static str> {
    match wish {
        Wish::Fraction(p) if p > 0.99 => Some("0.99"),
        Wish::Seconds(t) if t > 1.0 => Some("1s"),
        Wish::Fraction(p) if p < 0.0 => Some("0"),
        Wish::Seconds(t) if t < 0.0 => Some("0s"),
        _ => None,
    }
}

#[cfg(test)]
mod tests {
    use super::*;

    #[test]
    fn fractions_and_times() {
        assert_eq!(read("0.25"), Ok(Wish::Fraction(0.25)));
        assert_eq!(read("0.5s"), Ok(Wish::Seconds(0.5)));
        assert_eq!(read("10ms"), Ok(Wish::Seconds(0.01)));
        assert_eq!(read("250us"), Ok(Wish::Seconds(0.00025)));
        for wrong in ["", "s", "half", "10 ms", "50%", "1h"] {
            assert_eq!(read(wrong).unwrap_err(), "not a number", "{wrong}");
        }
    }

    #[test]
    fn outside_of_the_range() {
        assert_eq!(counts_as(Wish::Fraction(0.99)), None);
        assert_eq!(counts_as(Wish::Fraction(1.0)), Some("0.99"));
        assert_eq!(counts_as(Wish::Fraction(-0.1)), Some("0"));
        assert_eq!(counts_as(Wish::Seconds(1.0)), None);
        assert_eq!(counts_as(Wish::Seconds(2.0)), Some("1s"));
        assert_eq!(counts_as(Wish::Seconds(-2.0)), Some("0s"));
    }
}
