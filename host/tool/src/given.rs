//! What a command is given: a capture, and what its card and the folder's say of it.

use crate::args::{Args, Known, Takes};
use crate::card::{self, Card, Paper, Tie};
use crate::commands::exclude;
use crate::encoders::Encoders;
use crate::failure::{bad, Failure};
use crate::names::Names;
use crate::reader::{from_first, Place, Reader};
use crate::source::Source;
use crate::stretches::{joined, unknown_in, List};
use crate::sum::Sum;
use crate::told::Told;
use crate::{file, number};
use capture::{Capture, Stretch};
use std::ffi::{OsStr, OsString};
use std::io::ErrorKind;
use std::path::Path;

/// The options of every command that reads a capture.
pub const OPTIONS: [Known; 3] =
    [("--unit", Takes::Value), ("--card", Takes::Value), ("--no-card", Takes::Nothing)];

pub struct Given {
    pub capture: Capture,
    /// What is known of it: options go before its own card, and that before the folder's.
    pub card: Card,
    /// What its card is tied by, where that was asked for.
    pub tie: Option<Tie>,
    /// Whether it has a card of its own.
    pub has_card: bool,
    /// What is unknown of it where --stretches names a list: the list's stretches, and the card's.
    pub listed: Option<Vec<Stretch>>,
}

impl Given {
    /// Loads the file that a command is given, with its cards.
    pub fn load(command: &str, args: &Args) -> Result<Given, Failure> {
        Given::loaded(command, args, false)
    }

    /// The same for the command that ties cards: one that a person began is taken too.
    pub fn to_be_tied(command: &str, args: &Args) -> Result<Given, Failure> {
        Given::loaded(command, args, true)
    }

    fn loaded(command: &str, args: &Args, begun: bool) -> Result<Given, Failure> {
        let file = args.file().ok_or_else(|| bad("which file? - is standard input"))?;
        let rate = args.read_value("--rate", number::rate)?;
        // What is wrong with a card may tell of every line.
        let said = |failure| match (args.flag("--grant"), failure) {
            (true, Failure::Bad(_)) => bad("the card cannot be read, or is of another file"),
            (_, failure) => failure,
        };
        let list = List::asked(args)?;
        let papers = Papers::asked(args, file).map_err(said)?;
        let has_card = papers.has_own();
        let mut sum = (begun || has_card).then(Sum::new);
        let mut source = Source::open(file)?;
        let capture = file::load(command, args, &mut source, sum.as_mut())?;
        let list = list.map(|list| list.of(&capture)).transpose()?;
        let sum = sum.map(|sum| sum.number());
        let mut card = papers.card(&capture, sum, begun).map_err(said)?;
        card.rate = rate.or(card.rate);
        let tie = sum.map(|sum| Tie::new(&capture, sum));
        let listed = list.map(|list| joined(&list, &card.unknown));
        Ok(Given { capture, card, tie, has_card, listed })
    }

    /// Who asks, and what they may know.
    pub fn asked(&self, args: &Args) -> Result<Asked<'_>, Failure> {
        let reader = Reader::asked(args, &self.capture, &self.card.names)?;
        let asked = Asked::new(reader, &self.card);
        Ok(Asked { has_card: self.has_card, listed: self.listed.as_deref(), ..asked })
    }
}

/// Who asks, and what is known beside the samples, as far as they may know it.
pub struct Asked<'a> {
    pub reader: Reader<'a>,
    /// Samples a second.
    pub rate: Option<u64>,
    pub names: Names,
    pub encoders: Encoders,
    unknown: &'a [Stretch],
    /// Whether there is a card of the capture's own.
    pub has_card: bool,
    /// Those of a list, where one is named.
    pub listed: Option<&'a [Stretch]>,
}

impl<'a> Asked<'a> {
    pub fn new(reader: Reader<'a>, card: &'a Card) -> Asked<'a> {
        let Card { rate, names, encoders, unknown, .. } = card;
        let (names, encoders) = match &reader {
            Reader::Service(_) => (names.clone(), encoders.clone()),
            Reader::Mill(mill) => (names.within(mill.grant()), encoders.within(mill.grant())),
        };
        Asked { reader, rate: *rate, names, encoders, unknown, has_card: false, listed: None }
    }

    /// The unknown stretches. A mill is not given them.
    pub fn stretches(&self) -> &'a [Stretch] {
        match self.reader {
            Reader::Service(_) => self.listed.unwrap_or(self.unknown),
            Reader::Mill(_) => &[],
        }
    }

    /// What the card tells of the samples from place `a` up to `b`. A mill is told the same wherever it looks: it could find out
    /// where stretches begin and end.
    pub fn told(&self, a: Place, b: Place) -> Told {
        match self.reader {
            Reader::Mill(_) if self.unknown.is_empty() => Told::Nothing,
            Reader::Mill(_) => Told::Word,
            Reader::Service(capture) => {
                let [a, b] = [a, b].map(|place| from_first(place).min(capture.len()));
                Told::of(unknown_in(self.unknown, a, b))
            }
        }
    }

    /// What is told of all samples.
    pub fn told_of_all(&self) -> Told {
        self.told(self.reader.first(), self.reader.end())
    }
}

/// The cards that are there.
pub struct Papers {
    /// The file's own.
    own: Option<Paper>,
    folder: Option<Card>,
}

impl Papers {
    /// The cards of the file, as --card and --no-card say.
    pub fn asked(args: &Args, file: &OsStr) -> Result<Papers, Failure> {
        exclude(args, "--card", "--no-card")?;
        if args.flag("--no-card") {
            return Ok(Papers { own: None, folder: None });
        }
        let folder = if file == "-" { None } else { folder_card(Path::new(file))? };
        let own = match args.path("--card") {
            Some(path)
                if path == "-" && (file == "-" || args.path("--stretches") == Some(path)) =>
            {
                return Err(bad("--card -: standard input is taken; name a file"));
            }
            Some(path) => Some(Paper::read(Source::open(path)?)?),
            None if file == "-" => None,
            None => beside(file).map_or(Ok(None), |path| there(&path))?,
        };
        Ok(Papers { own, folder })
    }

    /// What they say of the capture, if its own card belongs to it.
    fn card(self, capture: &Capture, sum: Option<u64>, begun: bool) -> Result<Card, Failure> {
        let own = match (self.own, sum) {
            (Some(own), Some(sum)) if begun => own.begun(capture, sum)?,
            (Some(own), sum) => own.of(capture, sum)?,
            (None, _) => Card::default(),
        };
        Ok(own.over(&self.folder.unwrap_or_default()))
    }

    /// What they say of a damaged file, of which this was salvaged: unit, length and mark are all that its card is held against.
    pub fn of_damaged(self, salvaged: &Capture) -> Result<Option<Card>, Failure> {
        self.own.map(|own| own.of(salvaged, None)).transpose()
    }

    /// Whether the file has a card of its own.
    pub fn has_own(&self) -> bool {
        self.own.is_some()
    }
}

/// The name of a file's own card. A file whose card would be the folder's has none.
pub fn beside(file: &OsStr) -> Option<OsString> {
    let mut path = file.to_os_string();
    path.push(card::ENDING);
    (Path::new(&path).file_name() != Some(OsStr::new(card::FOLDER))).then_some(path)
}

/// The card of the folder that a file is in.
pub fn folder_card(file: &Path) -> Result<Option<Card>, Failure> {
    let path = file.with_file_name(card::FOLDER);
    there(path.as_os_str())?.map(Paper::shared).transpose()
}

/// A card, if it is there.
pub fn there(path: &OsStr) -> Result<Option<Paper>, Failure> {
    match std::fs::metadata(path) {
        Err(error) if matches!(error.kind(), ErrorKind::NotFound | ErrorKind::NotADirectory) => {
            Ok(None)
        }
        _ => Paper::read(Source::open(path)?).map(Some),
    }
}
