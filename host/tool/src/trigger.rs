//! Trigger terms as people write them.

use crate::lines;
use crate::names::Names;
use capture::{Condition, Term};

/// Words for the conditions, and the letters that sigrok-cli has for them.
const CONDITIONS: [(&str, &str, Condition); 5] = [
    ("rising", "r", Condition::Rising),
    ("falling", "f", Condition::Falling),
    ("edge", "e", Condition::Edge),
    ("high", "1", Condition::High),
    ("low", "0", Condition::Low),
];

/// Terms such as `3=rising`, with commas between them.
pub fn read(text: &str, unit: usize, names: &Names) -> Result<Vec<Term>, String> {
    text.split(',').map(|term| read_term(term, unit, names)).collect()
}

fn read_term(text: &str, unit: usize, names: &Names) -> Result<Term, String> {
    let Some((line, word)) = text.split_once('=') else {
        return Err(format!("'{text}' is no term such as 3=rising"));
    };
    let line = lines::read_line(line, unit, names)?;
    let condition = CONDITIONS.iter().find(|&&(long, short, _)| word == long || word == short);
    match condition {
        Some(&(_, _, condition)) => Ok(Term { line, condition }),
        None => Err(format!("'{word}' is no condition: rising, falling, edge, high or low")),
    }
}

#[cfg(test)]
mod tests {
    use super::*;

    fn read(text: &str, unit: usize) -> Result<Vec<Term>, String> {
        super::read(text, unit, &Names::default())
    }

    #[test]
    fn terms() {
        let term = |line, condition| Term { line, condition };
        assert_eq!(read("3=rising", 1), Ok(vec![term(3, Condition::Rising)]));
        let all = "0=rising,1=falling,2=edge,3=high,14=low";
        let conditions = CONDITIONS.map(|(_, _, condition)| condition);
        let expected: Vec<Term> =
            [0, 1, 2, 3, 14].into_iter().zip(conditions).map(|(l, c)| term(l, c)).collect();
        assert_eq!(read(all, 2), Ok(expected.clone()));
        assert_eq!(read("0=r,1=f,2=e,3=1,14=0", 2), Ok(expected));
    }

    #[test]
    fn what_is_wrong_is_said() {
        assert_eq!(read("3", 1).unwrap_err(), "'3' is no term such as 3=rising");
        assert_eq!(read("", 1).unwrap_err(), "'' is no term such as 3=rising");
        assert_eq!(read("x=high", 1).unwrap_err(), "'x' is no line: lines are 0 to 7");
        assert_eq!(read("3=rising,8=high", 1).unwrap_err(), "'8' is no line: lines are 0 to 7");
        assert_eq!(read("16=high", 2).unwrap_err(), "'16' is no line: lines are 0 to 15");
        assert_eq!(
            read("3=rsing", 1).unwrap_err(),
            "'rsing' is no condition: rising, falling, edge, high or low"
        );
    }
}
