//! Numbers as people write them.

use std::num::IntErrorKind;

/// A whole number.
pub fn whole(text: &str) -> Result<usize, String> {
    // Rust reads a plus sign too; here it is none.
    let digits = !text.starts_with('+');
    match text.parse() {
        Ok(number) if digits => Ok(number),
        Err(error) if *error.kind() == IntErrorKind::PosOverflow => {
            Err(format!("above {}", usize::MAX))
        }
        _ => Err("not a whole number".into()),
    }
}

/// The highest rate: times at it still have whole parts that a number holds.
pub const MOST_RATE: u64 = 1_000_000_000_000_000_000;

/// Samples a second, 1 or more: a whole number, which k, M or G may follow.
pub fn rate(text: &str) -> Result<u64, String> {
    let (digits, times) = match text.char_indices().last() {
        Some((at, 'k')) => (&text[..at], 1_000),
        Some((at, 'M')) => (&text[..at], 1_000_000),
        Some((at, 'G')) => (&text[..at], 1_000_000_000),
        _ => (text, 1),
    };
    match whole(digits)?.checked_mul(times) {
        Some(0) => Err("a rate is above 0".into()),
        Some(rate) if rate as u64 <= MOST_RATE => Ok(rate as u64),
        _ => Err(format!("above {MOST_RATE}")),
    }
}

/// Bytes a sample.
pub fn unit(text: &str) -> Result<usize, String> {
    match text {
        "1" => Ok(1),
        "2" => Ok(2),
        _ => Err("a unit is 1 or 2 bytes a sample".into()),
    }
}

/// A number with a point.
pub fn real(text: &str) -> Result<f64, String> {
    text.parse().map_err(|_| "not a number".into())
}

#[cfg(test)]
mod tests {
    use super::*;

    #[test]
    fn whole_numbers() {
        assert_eq!(whole("0"), Ok(0));
        assert_eq!(whole("18446744073709551615"), Ok(usize::MAX));
        assert_eq!(whole("18446744073709551616").unwrap_err(), "above 18446744073709551615");
        for wrong in ["", "-1", "+1", "1.0", "1e3", " 1", "x", "٣"] {
            assert_eq!(whole(wrong).unwrap_err(), "not a whole number");
        }
    }

    #[test]
    fn rates() {
        assert_eq!(rate("24000000"), Ok(24_000_000));
        assert_eq!(rate("500k"), Ok(500_000));
        assert_eq!(rate("24M"), Ok(24_000_000));
        assert_eq!(rate("1G"), Ok(1_000_000_000));
        for wrong in ["0", "0M", "M", "1.5M", "24 M", "24MHz", "99999999999G", "€"] {
            assert!(rate(wrong).is_err(), "{wrong}");
        }
    }
}
