//! The words behind a command, taken apart.

use crate::failure::{bad, Failure};
use std::ffi::{OsStr, OsString};

/// What stands behind an option.
#[derive(Clone, Copy, PartialEq, Eq)]
pub enum Takes {
    Nothing,
    /// A value, once.
    Value,
    /// A value, as often as it is given.
    Values,
    /// It is known and refused, for this reason.
    Refused(&'static str),
}

/// An option's name, and what it takes.
pub type Known = (&'static str, Takes);

/// Short names, and what they stand for.
const SHORT: [(&str, &str); 2] = [("-o", "--output"), ("-h", "--help")];

#[derive(Debug)]
pub struct Args {
    options: Vec<(&'static str, OsString)>,
    file: Option<OsString>,
}

impl Args {
    /// Reads the words; none where they ask for help.
    pub fn read(
        known: impl Iterator<Item = &'static Known>,
        words: &[OsString],
    ) -> Result<Option<Args>, Failure> {
        let known: Vec<Known> = known.copied().collect();
        let mut args = Args { options: Vec::new(), file: None };
        let mut words = words.iter();
        let mut options = true;
        while let Some(word) = words.next() {
            let text = word.to_string_lossy();
            if options && text == "--" {
                options = false;
            } else if !options || text == "-" || !text.starts_with('-') {
                if let Some(file) = &args.file {
                    return Err(bad(format!(
                        "'{text}' is one file too many beside '{}'",
                        file.to_string_lossy()
                    )));
                }
                args.file = Some(word.clone());
            } else {
                let Some(text) = word.to_str() else {
                    return Err(bad(format!(
                        "'{text}' is not UTF-8; put a space between option and value"
                    )));
                };
                let (name, joined) = match text.split_once('=') {
                    Some((name, value)) => (name, Some(OsString::from(value))),
                    None => (text, None),
                };
                let name = SHORT.iter().find(|short| short.0 == name).map_or(name, |short| short.1);
                if name == "--help" {
                    return Ok(None);
                }
                let Some(&(name, takes)) = known.iter().find(|known| known.0 == name) else {
                    return Err(bad(format!("there is no option '{name}'; see --help")));
                };
                if let Takes::Refused(why) = takes {
                    return Err(bad(format!("{name}: {why}")));
                }
                if takes != Takes::Values && args.flag(name) {
                    return Err(bad(format!("{name} is given twice")));
                }
                let value = match (takes, joined) {
                    (Takes::Nothing, None) => OsString::new(),
                    (Takes::Nothing, Some(_)) => return Err(bad(format!("{name} takes no value"))),
                    (_, Some(value)) => value,
                    (_, None) => {
                        let next = words.next().cloned();
                        next.ok_or_else(|| bad(format!("{name} needs a value behind it")))?
                    }
                };
                args.options.push((name, value));
            }
        }
        Ok(Some(args))
    }

    pub fn file(&self) -> Option<&OsStr> {
        self.file.as_deref()
    }

    /// Whether the option is given.
    pub fn flag(&self, name: &str) -> bool {
        self.options.iter().any(|option| option.0 == name)
    }

    /// A file's name behind an option.
    pub fn path(&self, name: &str) -> Option<&OsStr> {
        self.options.iter().find(|option| option.0 == name).map(|option| option.1.as_os_str())
    }

    /// The value behind an option.
    pub fn text(&self, name: &'static str) -> Result<Option<&str>, Failure> {
        self.texts(name).next().transpose()
    }

    /// All values behind an option.
    pub fn texts(&self, name: &'static str) -> impl Iterator<Item = Result<&str, Failure>> {
        let given = self.options.iter().filter(move |option| option.0 == name);
        given.map(move |(_, value)| {
            value
                .to_str()
                .ok_or_else(|| bad(format!("{name} {}: not UTF-8", value.to_string_lossy())))
        })
    }

    /// What `read` makes of the value behind an option. It says what is wrong, and here is added where.
    pub fn read_value<T>(
        &self,
        name: &'static str,
        read: impl FnOnce(&str) -> Result<T, String>,
    ) -> Result<Option<T>, Failure> {
        let Some(text) = self.text(name)? else { return Ok(None) };
        read(text).map(Some).map_err(|what| bad(format!("{name} {text}: {what}")))
    }
}

#[cfg(test)]
mod tests {
    use super::*;

    static KNOWN: [Known; 5] = [
        ("--from", Takes::Value),
        ("--hex", Takes::Nothing),
        ("--trigger", Takes::Values),
        ("--output", Takes::Value),
        ("--grant", Takes::Refused("not here")),
    ];

    fn read(line: &str) -> Result<Option<Args>, String> {
        let words: Vec<OsString> = line.split_whitespace().map(OsString::from).collect();
        Args::read(KNOWN.iter(), &words).map_err(|failure| match failure {
            Failure::Bad(what) => what,
            Failure::Unread => unreachable!(),
        })
    }

    #[test]
    fn options_and_a_file_in_any_order() {
        let args = read("--from 3 a.shelf --hex --trigger 1=high --trigger=2=low -o b.shelf")
            .unwrap()
            .unwrap();
        assert_eq!(args.file(), Some(OsStr::new("a.shelf")));
        assert_eq!(args.text("--from"), Ok(Some("3")));
        assert_eq!(args.path("--output"), Some(OsStr::new("b.shelf")));
        assert!(args.flag("--hex"));
        let terms: Vec<_> = args.texts("--trigger").map(Result::unwrap).collect();
        assert_eq!(terms, ["1=high", "2=low"]);
    }

    #[test]
    fn a_file_may_look_like_an_option_behind_two_dashes() {
        assert_eq!(read("-- --from").unwrap().unwrap().file(), Some(OsStr::new("--from")));
        assert_eq!(read("-").unwrap().unwrap().file(), Some(OsStr::new("-")));
    }

    #[test]
    fn help_wins() {
        assert!(read("a b --help").is_err());
        assert!(read("a --help --nonsense").unwrap().is_none());
        assert!(read("-h").unwrap().is_none());
    }

    #[test]
    fn what_is_wrong_is_said() {
        assert_eq!(read("--form 3").unwrap_err(), "there is no option '--form'; see --help");
        assert_eq!(read("--from").unwrap_err(), "--from needs a value behind it");
        assert_eq!(read("--hex=1").unwrap_err(), "--hex takes no value");
        assert_eq!(read("--from 1 --from 2").unwrap_err(), "--from is given twice");
        assert_eq!(read("a b").unwrap_err(), "'b' is one file too many beside 'a'");
        assert_eq!(read("--grant 1").unwrap_err(), "--grant: not here");
        assert_eq!(read("--grant").unwrap_err(), "--grant: not here");
    }
}
