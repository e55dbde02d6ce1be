//! Where a file is written to.

use crate::failure::{bad, Failure};
use std::ffi::OsStr;
use std::fs::{self, File};
use std::io::{self, BufWriter, Write};
use std::path::{Path, PathBuf};
use std::process;

/// A file to be written, or standard output where its name is `-`.
///
/// It is opened before the work, so that a wrong name is found at once. A plain file is written beside the one that it
/// replaces, and moved into its place once it is whole: whatever happens before that, the old one is as it was.
pub struct Output {
    path: PathBuf,
    to: To,
}

enum To {
    Standard,
    /// What is no plain file, such as a pipe, is written itself.
    Itself(File),
    Beside(Beside),
}

impl Output {
    pub fn open(path: &OsStr) -> Result<Output, Failure> {
        let path = PathBuf::from(path);
        let to = if path.as_os_str() == "-" { Ok(To::Standard) } else { To::open(&path) };
        match to {
            Ok(to) => Ok(Output { path, to }),
            Err(error) => Err(failed(&path, &error)),
        }
    }

    /// Whether it is standard output.
    pub fn is_standard(&self) -> bool {
        matches!(self.to, To::Standard)
    }

    /// Writes it, from the beginning. `out` is standard output.
    pub fn write(
        self,
        out: &mut dyn Write,
        write: impl FnOnce(&mut dyn Write) -> io::Result<()>,
    ) -> Result<(), Failure> {
        let written = match self.to {
            To::Standard => return Ok(write(out)?),
            To::Itself(file) => written(&file, write),
            To::Beside(beside) => beside.write(write).and_then(|()| beside.put()),
        };
        written.map_err(|error| failed(&self.path, &error))
    }
}

/// A plain file, and what tells of it, beside it under its name with an ending: a list, and where there is one, a card.
///
/// All are whole and on the disk before any is moved into its place, and the old list and the old card are moved aside first:
/// whatever happens, no list stands beside a file that it does not tell of, and no new card.
pub struct Listed {
    file: Target,
    list: Target,
    card: Option<Target>,
}

/// A file to be written beside its place, and its name.
struct Target {
    path: PathBuf,
    beside: Beside,
}

impl Listed {
    pub fn open(path: &OsStr, ending: &str) -> Result<Listed, Failure> {
        let mut list = path.to_os_string();
        list.push(ending);
        Ok(Listed { file: Target::open(path)?, list: Target::open(&list)?, card: None })
    }

    /// With a card of this name too.
    pub fn carded(self, card: &OsStr) -> Result<Listed, Failure> {
        Ok(Listed { card: Some(Target::open(card)?), ..self })
    }

    pub fn write(
        self,
        file: impl FnOnce(&mut dyn Write) -> io::Result<()>,
        list: impl FnOnce(&mut dyn Write) -> io::Result<()>,
    ) -> Result<(), Failure> {
        self.write_all(file, list, |_| Ok(()))
    }

    /// Writes the card too, where there is one.
    pub fn write_all(
        self,
        file: impl FnOnce(&mut dyn Write) -> io::Result<()>,
        list: impl FnOnce(&mut dyn Write) -> io::Result<()>,
        card: impl FnOnce(&mut dyn Write) -> io::Result<()>,
    ) -> Result<(), Failure> {
        self.file.said(self.file.beside.write(file))?;
        self.list.said(self.list.beside.write(list))?;
        if let Some(target) = &self.card {
            target.said(target.beside.write(card))?;
        }
        let tell = [Some(self.list), self.card];
        let mut aside = Vec::new();
        let moved = tell.iter().flatten().try_for_each(|target| {
            aside.extend(target.said(target.beside.set_aside())?);
            Ok(())
        });
        if let Err(failure) = moved.and_then(|()| self.file.put()) {
            // The old file is still there. Where what tells of it cannot be put back, there is one failure to tell all the same.
            aside.into_iter().for_each(|old| drop(old.put()));
            return Err(failure);
        }
        tell.into_iter().flatten().try_for_each(Target::put)
    }
}

impl Target {
    fn open(path: &OsStr) -> Result<Target, Failure> {
        let path = PathBuf::from(path);
        match To::open(&path) {
            Ok(To::Beside(beside)) => Ok(Target { path, beside }),
            Ok(_) => Err(bad(format!("{}: not a plain file", path.display()))),
            Err(error) => Err(failed(&path, &error)),
        }
    }

    fn put(self) -> Result<(), Failure> {
        self.beside.put().map_err(|error| failed(&self.path, &error))
    }

    /// What was done, or the failure with its name.
    fn said<T>(&self, done: io::Result<T>) -> Result<T, Failure> {
        done.map_err(|error| failed(&self.path, &error))
    }
}

fn failed(path: &Path, error: &io::Error) -> Failure {
    bad(format!("{}: {error}", path.display()))
}

fn written(file: &File, write: impl FnOnce(&mut dyn Write) -> io::Result<()>) -> io::Result<()> {
    let mut file = BufWriter::new(file);
    write(&mut file)?;
    file.flush()
}

impl To {
    fn open(path: &Path) -> io::Result<To> {
        // Who may not write in the old file may not replace it.
        match File::options().write(true).open(path) {
            Ok(old) if old.metadata()?.is_file() => {
                // A link stays one: the file that it leads to is replaced.
                let beside = Beside::new(fs::canonicalize(path)?)?;
                beside.file.set_permissions(old.metadata()?.permissions())?;
                Ok(To::Beside(beside))
            }
            Ok(other) => Ok(To::Itself(other)),
            Err(error) if error.kind() == io::ErrorKind::NotFound && names_file(path) => {
                Ok(To::Beside(Beside::new(path.to_path_buf())?))
            }
            Err(error) => Err(error),
        }
    }
}

/// Whether a file can have this name.
fn names_file(path: &Path) -> bool {
    path.file_name().is_some() && !path.as_os_str().as_encoded_bytes().ends_with(b"/")
}

/// A file beside the one whose place it is to take. It is taken away again if it does not come to that.
struct Beside {
    file: File,
    path: PathBuf,
    place: PathBuf,
    moved: bool,
}

impl Beside {
    fn new(place: PathBuf) -> io::Result<Beside> {
        for number in 0.. {
            let path = place.with_file_name(format!(".logic-capture-{}-{number}", process::id()));
            match File::create_new(&path) {
                Ok(file) => return Ok(Beside { file, path, place, moved: false }),
                // One that was left behind.
                Err(error) if error.kind() == io::ErrorKind::AlreadyExists => {}
                Err(error) => return Err(error),
            }
        }
        unreachable!("a folder has fewer files than there are numbers")
    }

    /// Writes it, from the beginning, and has it on the disk.
    fn write(&self, write: impl FnOnce(&mut dyn Write) -> io::Result<()>) -> io::Result<()> {
        written(&self.file, write)?;
        self.file.sync_all()
    }

    /// Moves what stands in its place aside, if anything does: from there it can be put back, or is taken away.
    fn set_aside(&self) -> io::Result<Option<Beside>> {
        let aside = Beside::new(self.place.clone())?;
        match move_to(&self.place, &aside.path) {
            Ok(()) => Ok(Some(aside)),
            Err(error) if error.kind() == io::ErrorKind::NotFound => Ok(None),
            Err(error) => Err(error),
        }
    }

    /// Moves it into place.
    fn put(mut self) -> io::Result<()> {
        move_to(&self.path, &self.place)?;
        self.moved = true;
        Ok(())
    }
}

/// Moves a file within its folder.
fn move_to(from: &Path, to: &Path) -> io::Result<()> {
    fs::rename(from, to)?;
    // The move itself. Not every folder can be synced; the file is whole either way.
    let folder = to.parent().filter(|folder| !folder.as_os_str().is_empty());
    let _ = File::open(folder.unwrap_or(Path::new("."))).and_then(|folder| folder.sync_all());
    Ok(())
}

impl Drop for Beside {
    fn drop(&mut self) {
        if !self.moved {
            // Where that fails a file is left over: nothing is lost.
            let _ = fs::remove_file(&self.path);
        }
    }
}

#[cfg(test)]
mod tests {
    use super::*;
    use std::env;

    #[test]
    fn a_file_that_cannot_be_moved_leaves_the_old_list() {
        let folder = env::temp_dir().join(format!("logic-capture-listed-{}", process::id()));
        let _ = fs::remove_dir_all(&folder);
        fs::create_dir(&folder).unwrap();
        let (file, list) = (folder.join("a"), folder.join("a.list"));
        fs::write(&list, "old").unwrap();
        let written = |text: &'static [u8]| move |to: &mut dyn Write| to.write_all(text);

        let output = Listed::open(file.as_os_str(), ".list").unwrap();
        fs::create_dir(&file).unwrap();
        let failure = output.write(written(b"file"), written(b"list")).unwrap_err();
        assert_eq!(failure, bad(format!("{}: Is a directory (os error 21)", file.display())));
        assert_eq!(fs::read(&list).unwrap(), b"old");
        assert_eq!(fs::read_dir(&folder).unwrap().count(), 2);

        fs::remove_dir(&file).unwrap();
        let output = Listed::open(file.as_os_str(), ".list").unwrap();
        output.write(written(b"file"), written(b"list")).unwrap();
        assert_eq!(
            (fs::read(&file).unwrap(), fs::read(&list).unwrap()),
            (b"file".into(), b"list".into())
        );
        assert_eq!(fs::read_dir(&folder).unwrap().count(), 2);
        fs::remove_dir_all(&folder).unwrap();
    }

    #[test]
    fn a_file_that_cannot_be_moved_leaves_the_old_card() {
        let folder = env::temp_dir().join(format!("logic-capture-carded-{}", process::id()));
        let _ = fs::remove_dir_all(&folder);
        fs::create_dir(&folder).unwrap();
        let (file, card) = (folder.join("a"), folder.join("a.card"));
        fs::write(&card, "old").unwrap();
        let open = || {
            let listed = Listed::open(file.as_os_str(), ".list").unwrap();
            listed.carded(card.as_os_str()).unwrap()
        };
        let written = |text: &'static [u8]| move |to: &mut dyn Write| to.write_all(text);

        let output = open();
        fs::create_dir(&file).unwrap();
        let failure = output.write_all(written(b"file"), written(b"list"), written(b"card"));
        let failure = failure.unwrap_err();
        assert_eq!(failure, bad(format!("{}: Is a directory (os error 21)", file.display())));
        assert_eq!(fs::read(&card).unwrap(), b"old");
        assert_eq!(fs::read_dir(&folder).unwrap().count(), 2);

        fs::remove_dir(&file).unwrap();
        let output = open();
        output.write_all(written(b"file"), written(b"list"), written(b"card")).unwrap();
        assert_eq!(
            (fs::read(&file).unwrap(), fs::read(&card).unwrap()),
            (b"file".into(), b"card".into())
        );
        assert_eq!(fs::read_dir(&folder).unwrap().count(), 3);
        fs::remove_dir_all(&folder).unwrap();
    }
}
