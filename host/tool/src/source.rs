//! Where bytes are read from: a file or standard input.

use crate::failure::{bad, Failure};
use crate::interrupt;
use std::ffi::OsStr;
use std::fs::File;
use std::io::{self, Read, Seek, SeekFrom};
use std::os::fd::AsFd;

/// What is read, from a place on where it has places: a pipe has none.
trait Bytes: Read + Seek {}

impl<T: Read + Seek> Bytes for T {}

/// Bytes, and the name under which errors speak of them.
pub struct Source {
    pub name: String,
    bytes: Box<dyn Bytes>,
}

impl Source {
    /// The file, or standard input where it is `-`.
    pub fn open(file: &OsStr) -> Result<Source, Failure> {
        let (name, opened) = if file == "-" {
            // Standard input may be a file with places, too.
            let input = io::stdin().as_fd().try_clone_to_owned();
            ("standard input".into(), input.map(File::from))
        } else {
            (file.to_string_lossy().into_owned(), File::open(file))
        };
        match opened {
            Ok(file) => Ok(Source { name, bytes: Box::new(file) }),
            Err(error) => Err(bad(format!("{name}: {error}"))),
        }
    }

    #[cfg(test)]
    pub fn of(bytes: &[u8]) -> Source {
        Source { name: "test".into(), bytes: Box::new(io::Cursor::new(bytes.to_vec())) }
    }

    /// Some bytes, as many as there are now; 0 at the end, which Ctrl-C may bring.
    pub fn some(&mut self, buffer: &mut [u8]) -> Result<usize, Failure> {
        while !interrupt::came() {
            match self.bytes.read(buffer) {
                Ok(count) => return Ok(count),
                Err(error) if error.kind() == io::ErrorKind::Interrupted => {}
                Err(error) => return Err(self.bad(&error.to_string())),
            }
        }
        Ok(0)
    }

    /// As many bytes as the buffer takes, or all that are left.
    pub fn full(&mut self, buffer: &mut [u8]) -> Result<usize, Failure> {
        let mut count = 0;
        while count < buffer.len() {
            match self.some(&mut buffer[count..])? {
                0 => break,
                more => count += more,
            }
        }
        Ok(count)
    }

    /// Something is wrong with what is read here.
    pub fn bad(&self, what: &str) -> Failure {
        bad(format!("{}: {what}", self.name))
    }
}

impl Read for Source {
    fn read(&mut self, buffer: &mut [u8]) -> io::Result<usize> {
        self.bytes.read(buffer)
    }
}

impl Seek for Source {
    fn seek(&mut self, to: SeekFrom) -> io::Result<u64> {
        self.bytes.seek(to)
    }
}
