//! Runs the tool in a folder of its own. Each test file uses some.
#![allow(dead_code)]

use capture::{Counted, Encoder};
use std::fs;
use std::io::Write;
use std::path::PathBuf;
use std::process::{Command, Stdio};

pub const TOOL: &str = env!("CARGO_BIN_EXE_logic-capture");

/// A folder for a test's files, empty at first.
pub struct Folder(pub PathBuf);

/// What a run gave.
#[derive(Debug, PartialEq, Eq)]
pub struct Run {
    pub status: i32,
    pub out: String,
    pub err: String,
}

/// What the tool says of an encoder, without its turns.
pub fn turned(Encoder { position, forward, backward, skipped }: Encoder) -> String {
    format!("position {position} forward {forward} backward {backward} skipped {skipped}\n")
}

impl Folder {
    pub fn new(test: &str) -> Folder {
        let folder = PathBuf::from(env!("CARGO_TARGET_TMPDIR")).join(test);
        let _ = fs::remove_dir_all(&folder);
        fs::create_dir_all(&folder).unwrap();
        Folder(folder)
    }

    pub fn write(&self, name: &str, bytes: &[u8]) {
        fs::write(self.0.join(name), bytes).unwrap();
    }

    pub fn read(&self, name: &str) -> Vec<u8> {
        fs::read(self.0.join(name)).unwrap()
    }

    pub fn has(&self, name: &str) -> bool {
        self.0.join(name).exists()
    }

    /// The names in it, sorted.
    pub fn names(&self) -> Vec<String> {
        let entries = fs::read_dir(&self.0).unwrap().map(|entry| entry.unwrap().file_name());
        let mut names: Vec<_> = entries.map(|name| name.into_string().unwrap()).collect();
        names.sort();
        names
    }

    /// Runs the tool with the words of a line.
    pub fn run(&self, line: &str) -> Run {
        self.run_on(line, &[])
    }

    /// The same with standard input.
    pub fn run_on(&self, line: &str, input: &[u8]) -> Run {
        let words: Vec<&str> = line.split_whitespace().collect();
        self.run_words(&words, input)
    }

    /// Asks for a search, which must give this answer, or none with status 1; and again with the nodes read.
    pub fn search(&self, line: &str, Counted { found, read }: Counted<String>) {
        let run = |line: &str, out| {
            let status = i32::from(found.is_none());
            assert_eq!(self.run(line), Run { status, out, err: String::new() }, "{line}");
        };
        run(line, found.iter().map(|found| format!("{found}\n")).collect());
        let found = found.as_deref().unwrap_or("none");
        run(&format!("{line} --read"), format!("{found} {read}\n"));
    }

    pub fn run_words(&self, words: &[&str], input: &[u8]) -> Run {
        let mut tool = self.command(words).stdin(Stdio::piped()).spawn().unwrap();
        // The tool may be done before it has read all.
        let _ = tool.stdin.take().unwrap().write_all(input);
        let output = tool.wait_with_output().unwrap();
        Run {
            status: output.status.code().unwrap(),
            out: String::from_utf8(output.stdout).unwrap(),
            err: String::from_utf8(output.stderr).unwrap(),
        }
    }

    pub fn command(&self, words: &[&str]) -> Command {
        let mut command = Command::new(TOOL);
        command.args(words).current_dir(&self.0).stdout(Stdio::piped()).stderr(Stdio::piped());
        command
    }
}

impl Run {
    /// The standard output of a run that said yes and had nothing to remark.
    pub fn yes(self) -> String {
        assert_eq!((self.status, self.err.as_str()), (0, ""), "{}", self.out);
        self.out
    }

    /// A run that found none, and printed nothing.
    pub fn none(self) {
        assert_eq!(self, Run { status: 1, out: String::new(), err: String::new() });
    }

    /// The one line of a run that was refused.
    pub fn bad(self) -> String {
        assert_eq!((self.status, self.out.as_str()), (2, ""), "{}", self.err);
        assert_eq!(self.err.lines().count(), 1, "{}", self.err);
        self.err.trim_end().to_string()
    }
}
