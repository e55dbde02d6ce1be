//! How samples and masks are printed.

use crate::args::Args;
use crate::failure::{bad, Failure};
use capture::Lines;

#[derive(Clone, Copy, Debug, PartialEq, Eq)]
pub enum Form {
    Decimal,
    Hex,
    /// One digit a line, line 0 last.
    Bits,
}

impl Form {
    /// As --hex or --bits asks.
    pub fn asked(args: &Args) -> Result<Form, Failure> {
        match (args.flag("--hex"), args.flag("--bits")) {
            (false, false) => Ok(Form::Decimal),
            (true, false) => Ok(Form::Hex),
            (false, true) => Ok(Form::Bits),
            (true, true) => Err(bad("--hex and --bits exclude each other")),
        }
    }

    /// A sample of a unit, or a mask of its lines.
    pub fn written(self, value: Lines, unit: usize) -> String {
        match self {
            Form::Decimal => value.to_string(),
            Form::Hex => format!("0x{value:0digits$x}", digits = 2 * unit),
            Form::Bits => format!("{value:0digits$b}", digits = 8 * unit),
        }
    }
}

#[cfg(test)]
mod tests {
    use super::*;

    #[test]
    fn forms() {
        assert_eq!(Form::Decimal.written(10, 1), "10");
        assert_eq!(Form::Hex.written(10, 1), "0x0a");
        assert_eq!(Form::Hex.written(10, 2), "0x000a");
        assert_eq!(Form::Bits.written(10, 1), "00001010");
        assert_eq!(Form::Bits.written(0x8001, 2), "1000000000000001");
    }
}
