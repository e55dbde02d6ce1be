//! Lines as people write them.

use crate::names::Names;
use capture::Lines;

/// All lines that samples of a unit have.
pub fn all(unit: usize) -> Vec<u8> {
    (0..8 * unit as u8).collect()
}

/// One line of samples of a unit: its number, or its name.
pub fn read_line(text: &str, unit: usize, names: &Names) -> Result<u8, String> {
    let last = 8 * unit - 1;
    let known = if names.is_empty() { "" } else { ", and no line has that name" };
    let wrong = || format!("'{text}' is no line{known}: lines are 0 to {last}");
    match crate::number::whole(text) {
        Ok(line) if line <= last => Ok(line as u8),
        Ok(_) => Err(format!("'{text}' is no line: lines are 0 to {last}")),
        Err(_) => match names.line(text)?.ok_or_else(wrong)? {
            line if usize::from(line) <= last => Ok(line),
            line => Err(format!("'{text}' is line {line}, and lines are 0 to {last}")),
        },
    }
}

/// Lines in the order written: `3`, `0,4-7`, names among them, or `all`.
pub fn read(text: &str, unit: usize, names: &Names) -> Result<Vec<u8>, String> {
    if text == "all" {
        return Ok(all(unit));
    }
    let mut lines = Vec::new();
    for part in text.split(',') {
        let is_range = part.bytes().all(|byte| byte.is_ascii_digit() || byte == b'-');
        let (first, last) = match part.split_once('-') {
            Some(ends) if is_range || names.is_empty() => ends,
            _ => (part, part),
        };
        let line = |text| read_line(text, unit, names);
        let (first, last) = (line(first)?, line(last)?);
        if first > last {
            return Err(format!("'{part}' runs backward"));
        }
        lines.extend(first..=last);
    }
    Ok(lines)
}

/// A line with a name, `3=turner`.
pub fn read_name(text: &str, unit: usize) -> Result<(u8, String), String> {
    let Some((line, name)) = text.split_once('=') else {
        return Err(format!("'{text}' is no name such as 3=turner"));
    };
    Ok((read_line(line, unit, &Names::default())?, name.to_string()))
}

pub fn mask(lines: &[u8]) -> Lines {
    lines.iter().fold(0, |mask, line| mask | 1 << line)
}

/// A mask's lines with commas between them, each with its name behind it; `-` where it has none.
pub fn written(mask: Lines, names: &Names) -> String {
    let lines: Vec<String> = (0..Lines::BITS as u8)
        .filter(|line| mask >> line & 1 == 1)
        .map(|line| labelled(line, names))
        .collect();
    if lines.is_empty() {
        "-".into()
    } else {
        lines.join(",")
    }
}

/// A line as it is shown: its number, and its name behind that.
pub fn labelled(line: u8, names: &Names) -> String {
    names.of(line).map_or_else(|| line.to_string(), |name| format!("{line} {name}"))
}

#[cfg(test)]
mod tests {
    use super::*;

    fn read(text: &str, unit: usize) -> Result<Vec<u8>, String> {
        super::read(text, unit, &Names::default())
    }

    fn named() -> Names {
        let mut names = Names::default();
        for (line, name) in [(1, "drive-on"), (3, "twice"), (5, "twice"), (11, "turner A")] {
            names.put(line, name.into());
        }
        names
    }

    #[test]
    fn lists() {
        assert_eq!(read("3", 1), Ok(vec![3]));
        assert_eq!(read("5,0-2", 1), Ok(vec![5, 0, 1, 2]));
        assert_eq!(read("7-7", 1), Ok(vec![7]));
        assert_eq!(read("all", 1), Ok(vec![0, 1, 2, 3, 4, 5, 6, 7]));
        assert_eq!(mask(&read("all", 2).unwrap()), 0xffff);
        assert_eq!(mask(&[5, 0, 1, 5]), 0b100011);
    }

    #[test]
    fn names_stand_for_lines() {
        let read = |text, unit| super::read(text, unit, &named());
        assert_eq!(read("turner A", 2), Ok(vec![11]));
        assert_eq!(read("7,drive-on,0-1", 1), Ok(vec![7, 1, 0, 1]));
        let twice = "'twice' is the name of line 3 and of line 5";
        assert_eq!(read("0,twice", 1).unwrap_err(), twice);
        let beyond = "'turner A' is line 11, and lines are 0 to 7";
        assert_eq!(read("turner A", 1).unwrap_err(), beyond);
        for text in ["turner", "Drive-on", "0-drive-on", "0x3"] {
            let what = "is no line, and no line has that name: lines are 0 to 15";
            assert_eq!(read(text, 2).unwrap_err(), format!("'{text}' {what}"));
        }
        assert_eq!(read("16", 2).unwrap_err(), "'16' is no line: lines are 0 to 15");
    }

    #[test]
    fn what_is_wrong_is_said() {
        for (text, part) in
            [("8", "8"), ("", ""), ("0,", ""), ("1-", ""), ("-1", ""), ("a", "a"), ("0x3", "0x3")]
        {
            assert_eq!(
                read(text, 1).unwrap_err(),
                format!("'{part}' is no line: lines are 0 to 7")
            );
        }
        assert_eq!(read("0,3-2", 1).unwrap_err(), "'3-2' runs backward");
        assert_eq!(read_name("3", 1).unwrap_err(), "'3' is no name such as 3=turner");
    }

    #[test]
    fn masks_are_written_as_lines() {
        let written = |mask| written(mask, &Names::default());
        assert_eq!(written(0), "-");
        assert_eq!(written(0b1000_0000_0000_1001), "0,3,15");
        assert_eq!(super::written(0b1010, &named()), "1 drive-on,3 twice");
    }
}
