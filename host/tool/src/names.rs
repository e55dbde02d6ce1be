//! Names of lines.

use capture::Lines;

/// Lines with names, in rising order, each line once. A name may stand more than once; nobody can ask by it then.
#[derive(Clone, Debug, Default, PartialEq, Eq)]
pub struct Names(Vec<(u8, String)>);

impl Names {
    pub fn is_empty(&self) -> bool {
        self.0.is_empty()
    }

    /// Each line and its name.
    pub fn iter(&self) -> impl Iterator<Item = (u8, &str)> {
        self.0.iter().map(|(line, name)| (*line, name.as_str()))
    }

    /// The name of a line.
    pub fn of(&self, line: u8) -> Option<&str> {
        self.iter().find(|&(named, _)| named == line).map(|(_, name)| name)
    }

    /// Gives a line a name, in place of the one that it has.
    pub fn put(&mut self, line: u8, name: String) {
        self.0.retain(|&(named, _)| named != line);
        let at = self.0.partition_point(|&(named, _)| named < line);
        self.0.insert(at, (line, name));
    }

    /// The line with a name; none where there is no such one.
    pub fn line(&self, name: &str) -> Result<Option<u8>, String> {
        let mut lines = self.iter().filter(|&(_, named)| named == name).map(|(line, _)| line);
        match (lines.next(), lines.next()) {
            (Some(one), Some(other)) => {
                Err(format!("'{name}' is the name of line {one} and of line {other}"))
            }
            (line, _) => Ok(line),
        }
    }

    /// The names of some lines.
    pub fn within(&self, mask: Lines) -> Names {
        let named = self.0.iter().filter(|(line, _)| mask >> line & 1 == 1);
        Names(named.cloned().collect())
    }
}

/// A name as people write it. None reads as lines, and none holds what stands between lines or before a condition.
pub fn read(text: &str) -> Result<String, String> {
    let name = text.trim();
    let is_lines = name == "all" || name.bytes().all(|byte| byte.is_ascii_digit() || byte == b'-');
    match name {
        "" => Err("a name is missing".into()),
        _ if is_lines => Err(format!("'{name}' is no name: it reads as lines")),
        _ if name.contains([',', '=']) => Err(format!("'{name}' is no name: it holds , or =")),
        _ if name.contains(char::is_control) => Err("a name holds a control character".into()),
        _ => Ok(name.into()),
    }
}

#[cfg(test)]
mod tests {
    use super::*;

    #[test]
    fn names_are_found() {
        let mut names = Names::default();
        for (line, name) in [(11, "turner A"), (3, "drive"), (12, "turner"), (12, "turner B")] {
            names.put(line, name.into());
        }
        assert!(names.iter().eq([(3, "drive"), (11, "turner A"), (12, "turner B")]));
        assert_eq!((names.of(3), names.of(4)), (Some("drive"), None));
        assert_eq!(names.line("turner A"), Ok(Some(11)));
        assert_eq!(names.line("turner"), Ok(None));
        names.put(4, "drive".into());
        let twice = "'drive' is the name of line 3 and of line 4";
        assert_eq!(names.line("drive").unwrap_err(), twice);
        // Who may see one of them alone knows of no other.
        assert_eq!(names.within(1 << 4 | 1 << 12).line("drive"), Ok(Some(4)));
        assert_eq!(names.within(1 << 4 | 1 << 12).line("turner A"), Ok(None));
    }

    #[test]
    fn what_reads_as_lines_is_no_name() {
        for name in ["turner A", "a-b", "3a", "All", "ä", "head 1", "3-a"] {
            assert_eq!(read(name), Ok(name.into()));
        }
        assert_eq!(read("  drive\t"), Ok("drive".into()));
        for name in ["3", "0-7", "all", "-", "99", "1-2-3"] {
            assert_eq!(read(name).unwrap_err(), format!("'{name}' is no name: it reads as lines"));
        }
        for name in ["a,b", "a=b", "="] {
            assert_eq!(read(name).unwrap_err(), format!("'{name}' is no name: it holds , or ="));
        }
        assert_eq!(read(" ").unwrap_err(), "a name is missing");
        assert_eq!(read("a\u{7}b").unwrap_err(), "a name holds a control character");
    }
}
