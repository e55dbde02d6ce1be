//! Makes the declarations of logic_core_c's exports, for C and for Rust, from the crate's own source, and names for the numbers
//! of records and behind out pointers from the constants by which the crates read and write them.
//!
//! What crosses: a number by value; `&[T]` as a pointer to const and a length, `&mut [T]` as a pointer and a length;
//! `&[T; n]` and `&T` as a pointer to const, `&mut [T; n]` and `&mut T` as a pointer.
//!
//! include/logic_core.rs is made whole. In include/logic_core.h the comments, and where each call stands, are people's; its
//! declarations, the names, and what stands for the lent memory there, are made.

pub mod c;
mod difference;
pub mod export;
mod lines;
pub mod names;
mod read;
mod rust;

pub use names::names;
pub use read::exports;

use difference::Item;
use export::Export;
use names::Names;
use std::fs;
use std::path::{Path, PathBuf};

/// The crate whose functions the archive shows.
const SOURCE: &str = "crates/logic_core_c/src";
const CRATES: &str = "crates";
/// The files whose constants name numbers.
const NAMES: [&str; 3] = [
    "crates/capture/src/record.rt",
    "crates/feeder_numbers/src/recorder.rt",
    "crates/codes/src/out.rt",
];
const HEADER: &str = "include/logic_core.h";
const RUST: &str = "include/logic_core.rs";

/// The exports and the names, and the two files that declare them.
pub struct Declarations {
    pub exports: Vec<Export>,
    pub names: Vec<Names>,
    pub header: String,
    pub rust: String,
}

impl Declarations {
    /// Reads them from the repository. Err has a line for each thing that cannot be read.
    pub fn read(repository: &Path) -> Result<Declarations, Vec<String>> {
        let exports = exports(&files(repository, SOURCE)?, &sources(repository)?)?;
        let naming: Result<Vec<_>, _> = NAMES.iter().map(|name| file(repository, name)).collect();
        let names = names(&naming.map_err(|line| vec![line])?)?;
        let text = |name: &str| fs::read_to_string(repository.join(name)).unwrap_or_default();
        Ok(Declarations { exports, names, header: text(HEADER), rust: text(RUST) })
    }

    /// A line for each declaration that is not the export's, or the names'.
    pub fn differences(&self) -> Vec<String> {
        let mut lines = self.in_header();
        let before = lines.len();
        let made = rust::items(&self.exports, &self.names);
        lines.extend(difference::of(RUST, &made, &rust::find(&self.rust)));
        if lines.len() == before && self.rust != rust::file(&self.exports, &self.names) {
            lines.push(format!("{RUST}: is laid out otherwise"));
        }
        lines
    }

    fn in_header(&self) -> Vec<String> {
        difference::of(HEADER, &c::items(&self.exports, &self.names), &c::find(&self.header))
    }

    /// Makes both files' texts. Err has a line for each declaration that people have to place or take away.
    pub fn make(&mut self) -> Result<(), Vec<String>> {
        let made = c::items(&self.exports, &self.names);
        for Item { name, range, .. } in c::find(&self.header).into_iter().rev() {
            if let Some(item) = made.iter().find(|item| item.name == name) {
                self.header.replace_range(range, &item.text);
            }
        }
        self.rust = rust::file(&self.exports, &self.names);
        let left = self.in_header();
        if left.is_empty() {
            Ok(())
        } else {
            Err(left)
        }
    }

    pub fn write(&self, repository: &Path) -> Result<(), String> {
        for (name, text) in [(HEADER, &self.header), (RUST, &self.rust)] {
            fs::write(repository.join(name), text).map_err(|error| format!("{name}: {error}"))?;
        }
        Ok(())
    }
}

/// A file of Rattle, by its name from the repository's root.
pub struct File {
    pub name: String,
    pub text: String,
}

fn file(repository: &Path, name: &str) -> Result<File, String> {
    let text = fs::read_to_string(repository.join(name));
    let text = text.map_err(|error| format!("{name}: {error}"))?;
    Ok(File { name: name.into(), text })
}

/// What stands in a folder, by its name from the repository's root, in the order of the names.
fn entries(repository: &Path, folder: &str) -> Result<Vec<(String, PathBuf)>, Vec<String>> {
    let failed = |error| vec![format!("{folder}: {error}")];
    let mut found = Vec::new();
    for entry in fs::read_dir(repository.join(folder)).map_err(failed)? {
        let entry = entry.map_err(failed)?;
        found.push((format!("{folder}/{}", entry.file_name().to_string_lossy()), entry.path()));
    }
    found.sort();
    Ok(found)
}

/// The files of Rattle in a folder and the folders in it, in the order of their names.
fn files(repository: &Path, folder: &str) -> Result<Vec<File>, Vec<String>> {
    let mut found = Vec::new();
    for (name, path) in entries(repository, folder)? {
        if path.is_dir() {
            found.extend(files(repository, &name)?);
        } else if name.ends_with(".rt") {
            found.push(file(repository, &name).map_err(|line| vec![line])?);
        }
    }
    Ok(found)
}

/// The source of all crates. What `rt` keeps beside it in out/ has files of Rattle too, and may be older.
fn sources(repository: &Path) -> Result<Vec<File>, Vec<String>> {
    let mut found = Vec::new();
    for (name, path) in entries(repository, CRATES)? {
        if path.join("src").is_dir() {
            found.extend(files(repository, &format!("{name}/src"))?);
        }
    }
    Ok(found)
}
