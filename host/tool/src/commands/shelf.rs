//! The captures of a folder.

use super::card::total;
use super::Command;
use crate::args::{Args, Takes};
use crate::card::{self, Card};
use crate::encoders::Named;
use crate::failure::{bad, Failure, Outcome};
use crate::given::{beside, folder_card, there};
use crate::names::Names;
use crate::numbers::or_dash;
use crate::sum::{Sum, Summed};
use crate::told::Told;
use crate::{note, number};
use capture::{Capture, ReadError};
use std::ffi::{OsStr, OsString};
use std::fs::{self, File};
use std::io::Write;
use std::path::Path;

pub const COMMAND: Command = Command {
    name: "shelf",
    about: "Lists the shelf files of a folder, and whether each is sound",
    help: include_str!("../help/shelf.txt"),
    options: &[
        ("--encoder", Takes::Values),
        ("--no-card", Takes::Nothing),
        ("--grant", Takes::Refused("the files of a folder are not shown to mills")),
    ],
    reads: false,
    run,
};

/// What a shelf file's name ends with.
const ENDING: &[u8] = b".shelf";

/// An encoder's lines A and B.
type Pair = (usize, usize);

fn run(args: &Args, out: &mut dyn Write) -> Result<Outcome, Failure> {
    let folder = Path::new(args.file().ok_or_else(|| bad("which folder?"))?);
    let shared = match args.flag("--no-card") {
        true => None,
        false => folder_card(&folder.join(card::FOLDER))?,
    };
    let shared = shared.unwrap_or_default();
    let read_pair = |text| read_pair(text, &shared.names);
    let pairs: Vec<Pair> = args.texts("--encoder").map(read_pair).collect::<Result<_, _>>()?;
    let names = names(folder).map_err(|error| bad(format!("{}: {error}", folder.display())))?;
    if names.is_empty() {
        note("shelf", &format!("{}: no file's name ends in .shelf", folder.display()));
    }
    let (mut sound, mut known) = (true, true);
    for name in names {
        write!(out, "{} ", word(&name))?;
        // One file at a time is held in memory.
        match loaded(&folder.join(&name), args.flag("--no-card"), &shared) {
            Ok((capture, card)) => known &= print(&capture, &card, &pairs, out)?,
            Err(what) => {
                sound = false;
                writeln!(out, "bad {what}")?;
            }
        }
    }
    Ok(match (sound, known) {
        (false, _) => Outcome::No,
        (true, false) => Outcome::Unknown,
        (true, true) => Outcome::Yes,
    })
}

/// Reads the lines of an encoder, which the library refuses or takes whatever the capture is. They may have names of the
/// folder's card.
fn read_pair(text: Result<&str, Failure>, names: &Names) -> Result<Pair, Failure> {
    let text = text?;
    let wrong = |what: String| bad(format!("--encoder {text}: {what}"));
    let Some((a, b)) = text.split_once(',') else {
        return Err(wrong("an encoder is two lines, as in 11,12".into()));
    };
    let line = |text: &str| match (number::whole(text), names.line(text)) {
        (Ok(line), _) => Ok(line),
        (_, Ok(Some(line))) => Ok(line.into()),
        (Err(what), Ok(None)) if names.is_empty() => Err(wrong(what)),
        (_, Ok(None)) => Err(wrong(format!("'{text}' is no line, and no line has that name"))),
        (_, Err(twice)) => Err(wrong(twice)),
    };
    let pair @ (a, b) = (line(a)?, line(b)?);
    Capture::start(8, 1)?.encoder(a, b).map_err(|refusal| wrong(refusal.to_string()))?;
    Ok(pair)
}

/// The names of a folder's shelf files, sorted. One that cannot be looked at is one too.
fn names(folder: &Path) -> std::io::Result<Vec<OsString>> {
    let mut names = Vec::new();
    for entry in fs::read_dir(folder)? {
        let entry = entry?;
        let name = entry.file_name();
        let plain = || fs::metadata(entry.path()).map_or(true, |about| about.is_file());
        if name.as_encoded_bytes().ends_with(ENDING) && plain() {
            names.push(name);
        }
    }
    names.sort();
    Ok(names)
}

/// The capture of a file and its card, or what is wrong with one of them.
fn loaded(path: &Path, no_card: bool, shared: &Card) -> Result<(Capture, Card), String> {
    let file = File::open(path).map_err(|error| error.to_string())?;
    let mut sum = Sum::new();
    let summed = Summed { bytes: file, sum: &mut sum };
    let capture = Capture::read_from(summed, None).map_err(|error| match error {
        ReadError::Refused(_, Some(fault)) => fault.to_string(),
        _ => error.to_string(),
    })?;
    let paper = match beside(path.as_os_str()) {
        Some(beside) if !no_card => there(&beside).map_err(said)?,
        _ => None,
    };
    let own = match paper {
        Some(paper) => paper.of(&capture, Some(sum.number())).map_err(said)?,
        None => Card::default(),
    };
    Ok((capture, own.over(shared)))
}

/// What is wrong with a card. Its name stands before it.
fn said(failure: Failure) -> String {
    match failure {
        Failure::Bad(what) => what,
        Failure::Unread => unreachable!("nothing is printed while a card is read"),
    }
}

/// Prints what is behind a name, and says whether all samples are known.
fn print(
    capture: &Capture,
    card: &Card,
    pairs: &[Pair],
    out: &mut dyn Write,
) -> Result<bool, Failure> {
    let (unit, len, mark) = (capture.unit(), capture.len(), or_dash(capture.mark()));
    write!(out, "sound unit={unit} samples={len} mark={mark}")?;
    for &(a, b) in pairs {
        write!(out, " {a},{b}={}", capture.encoder(a, b)?.position)?;
    }
    for Named { name, a, b, .. } in card.encoders.iter() {
        let name = word(OsStr::new(name));
        write!(out, " {name}={}", total(capture, (*a).into(), (*b).into())?)?;
    }
    let unknown: usize = card.unknown.iter().map(|stretch| stretch.count).sum();
    writeln!(out, "{}", Told::of(unknown).behind())?;
    Ok(unknown == 0)
}

/// A name as one word of a line: white space, control characters, backslashes and what is no UTF-8 are written as bytes,
/// such as \x20.
fn word(name: &OsStr) -> String {
    let bytes =
        |bytes: &[u8]| bytes.iter().map(|byte| format!("\\x{byte:02x}")).collect::<String>();
    let mut word = String::new();
    for chunk in name.as_encoded_bytes().utf8_chunks() {
        for c in chunk.valid().chars() {
            if c.is_whitespace() || c.is_control() || c == '\\' {
                word += &bytes(c.encode_utf8(&mut [0; 4]).as_bytes());
            } else {
                word.push(c);
            }
        }
        word += &bytes(chunk.invalid());
    }
    word
}

#[cfg(test)]
mod tests {
    use super::*;
    use std::os::unix::ffi::OsStrExt;

    #[test]
    fn a_name_is_one_word() {
        for (name, expected) in [
            (&b"frame.shelf"[..], "frame.shelf"),
            ("Sägewerk.shelf".as_bytes(), "Sägewerk.shelf"),
            (b"a b\n\t.shelf", "a\\x20b\\x0a\\x09.shelf"),
            (b"a\\x20.shelf", "a\\x5cx20.shelf"),
            (b"\xff\xc3.shelf", "\\xff\\xc3.shelf"),
            ("\u{a0}\u{2028}\u{85}".as_bytes(), "\\xc2\\xa0\\xe2\\x80\\xa8\\xc2\\x85"),
        ] {
            assert_eq!(word(OsStr::from_bytes(name)), expected);
        }
    }
}
