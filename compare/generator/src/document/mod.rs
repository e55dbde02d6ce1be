//! Document 01 as a side: it has an answer to every line that wants one.

pub mod bursts;
pub mod file;
pub mod fillings;
mod mill;
pub mod refusals;
pub mod rules;
pub mod salvage;
mod unknown;

use crate::digest::digest;
use crate::feed::to_bytes;
use crate::file_memory::FileMemory;
use crate::node::{joined, span, Node, NUMBERS};
use crate::op::{Across, Lent, Op, Recorder, Settings, Store, Wish};
use crate::side::{Answer, Side};
use file::{Capture, Said};
use fillings::Fillings;
use rules::Turns;
use salvage::Salvaged;

/// Files up to this length are read and salvaged in two ways, and so are captures searched of which no more samples are to be
/// filled in all fillings.
const SMALL: usize = 4_096;

#[derive(Default)]
pub struct Document {
    lent: Lent,
    /// The record, which a line may have spoiled.
    store: Store,
    /// s, as the calls made it.
    samples: Vec<u16>,
    recorder: Option<Recording>,
    /// Numbers written into level memory by hand: level, index, value.
    puts: Vec<(u64, u64, u16)>,
    files: FileMemory,
}

struct Recording {
    settings: Settings,
    record: Recorder,
    /// All samples of the accepted pushes.
    accepted: Vec<u16>,
    armed: bool,
    previous: Option<u16>,
}

impl Side for Document {
    fn take(&mut self, op: &Op) -> Option<Answer> {
        match *op {
            Op::Lend(lent) => self.lent = lent,
            Op::Record(store) => self.store = store,
            Op::Feeder(record) => self.recording().record = record,
            Op::Put { level, index, value } => {
                self.puts.retain(|&(l, i, _)| (l, i) != (level, index));
                self.puts.push((level, index, value));
            }
            Op::PutFile { at, byte } => self.files.put(at as usize, byte),
            _ => return Some(self.answer(op)),
        }
        None
    }
}

impl Document {
    pub fn store(&self) -> Store {
        self.store
    }

    pub fn samples(&self) -> &[u16] {
        &self.samples
    }

    pub fn files(&self) -> &FileMemory {
        &self.files
    }

    /// Whether rows 1 and 2 refuse the store as it is now. This is Raw's refusal too, which has no number.
    pub fn refuses(&self) -> bool {
        refusals::store(&self.store, &self.lent).is_err()
    }

    fn answer(&mut self, op: &Op) -> Answer {
        match op {
            Op::Capture { channels, capacity } => {
                let unit = rules::unit(*channels);
                let store = Store { unit, capacity: *capacity, len: 0, mark: None };
                refusals::store(&store, &self.lent)?;
                self.begin(store);
                Ok(vec![unit])
            }
            Op::Start(settings) => self.start(settings),
            Op::Append(feed) => one(feed.pieces(self.store.unit), |piece| self.append(piece)),
            Op::Push(feed) => one(feed.pieces(self.store.unit), |piece| self.push(piece)),
            Op::Run => {
                let armed = self.recorder.as_ref().is_some_and(|r| r.armed);
                let mark = self.store.mark;
                let digest = digest(self.samples.iter().map(|&v| v as u64));
                let marked = mark.is_some() as u64;
                Ok(vec![self.store.len, marked, mark.unwrap_or(0), armed as u64, digest])
            }
            Op::State => {
                let r = self.recording();
                let previous = r.previous.unwrap_or(0) as u64;
                Ok(vec![r.record.kept, r.record.place, r.previous.is_some() as u64, previous])
            }
            Op::Raw(chunk) => Ok(self.raw(*chunk)),
            Op::FileLen => {
                refusals::record(&self.store)?;
                Ok(vec![file::length(self.store.unit, self.store.len)])
            }
            Op::Write { output } => self.write(*output),
            Op::Read { capacity, count } => self.read(*capacity, *count),
            Op::Salvage { capacity, count, list } => self.salvage(*capacity, *count, *list),
            Op::Says { count } => {
                let first = self.files.first(*count as usize);
                let said = file::says(&first);
                assert_eq!(
                    said.is_some(),
                    file::some_file_begins_so(&first),
                    "two ways, one answer"
                );
                said.map(|said| said.values()).ok_or(16)
            }
            Op::Pretrigger { time, rate, unit } => {
                let (pre, cut) = rules::pre(Wish::Seconds(*time), 0, *rate, *unit);
                Ok(vec![pre, cut as u64])
            }
            _ => {
                refusals::store(&self.store, &self.lent)?;
                self.question(op)
            }
        }
    }

    /// The questions, over a store that rows 1 and 2 don't refuse.
    fn question(&self, op: &Op) -> Answer {
        let s = &self.samples;
        let len = s.len() as u64;
        assert_eq!(self.store.len, len, "01 leaves answers over other records free");
        Ok(match op {
            Op::Get(i) if *i >= len => return Err(9),
            Op::Get(i) => vec![s[*i as usize] as u64],
            Op::Samples { start, count, output } => {
                let end = start.saturating_add(*count).min(len);
                let part = &s[(*start).min(end) as usize..end as usize];
                if *output < part.len() as u64 {
                    return Err(11);
                }
                listed(part)
            }
            Op::Whole => self.whole(),
            Op::Next { mask, from } => optional(rules::next(s, *mask, *from).map(|i| [i])),
            Op::Prev { mask, from } => optional(rules::prev(s, *mask, *from).map(|i| [i])),
            Op::Summary { a, b } => optional(rules::summary(s, *a, *b).map(|n| n.map(u64::from))),
            // Over right levels a plain scan decides, else the nodes that are there.
            Op::Density { a, b } if self.puts.is_empty() => vec![rules::density(s, *a, *b)],
            Op::Density { a, b } => {
                let node = joined(*a, *b, len, |level, number| self.node(level, number));
                vec![node.map_or(0, |node| node.count as u64)]
            }
            Op::Burst(burst) => optional(rules::burst(s, burst)),
            Op::Render(view) => {
                refusals::render(view)?;
                listed(&rules::render(s, view))
            }
            Op::RenderDigest(view) => {
                refusals::render(view)?;
                vec![digest(rules::render(s, view).into_iter().map(u64::from))]
            }
            Op::Encoder { a, b } => {
                refusals::encoder(*a, *b)?;
                turned(rules::encoder(s, *a, *b))
            }
            Op::Across(across) => {
                refusals::stretches(&across.stretches, len)?;
                optional(self.across(across).map(|i| [i]))
            }
            Op::Mill(mill) => return mill::answer(s, self.store.mark, mill),
            _ => unreachable!("no question: {op:?}"),
        })
    }

    /// A search across stretches that row 18 doesn't refuse.
    fn across(&self, across: &Across) -> Option<u64> {
        let Across { sort, way, mask, from, ref stretches } = *across;
        let (s, unit) = (&self.samples, self.store.unit);
        let found = unknown::search(s, unit, across);
        if fillings::count(unit, stretches).is_some_and(|n| n * s.len() as u64 <= SMALL as u64) {
            let filled = Fillings::new(s, unit, stretches, mask);
            assert_eq!(found, filled.search(sort, way, from), "two ways, one answer");
        }
        found
    }

    /// Another capture. The memory stays.
    fn begin(&mut self, store: Store) {
        let files = std::mem::take(&mut self.files);
        *self = Document { lent: self.lent, store, files, ..Document::default() };
    }

    /// Length and digest of the file.
    fn write(&mut self, output: u64) -> Answer {
        refusals::store(&self.store, &self.lent)?;
        let file = self.file();
        refusals::write(file.len() as u64, output)?;
        self.files.hold(&file);
        Ok(vec![file.len() as u64, digest(file.into_iter().map(u64::from))])
    }

    /// The file of the capture.
    fn file(&self) -> Vec<u8> {
        let Store { unit, len, mark, .. } = self.store;
        file::file_of(unit, mark, len, &to_bytes(&self.samples, unit))
    }

    fn read(&mut self, capacity: u64, count: u64) -> Answer {
        refusals::capacity(capacity)?;
        let first = self.files.first(count as usize);
        let read = file::read(&first);
        if first.len() <= SMALL {
            assert_eq!(read.is_some(), file::some_capture_has(&first), "two ways, one answer");
        }
        let Capture { said, bytes } = read.ok_or(16u64)?;
        let Said { unit, len, mark } = said;
        let store = Store { unit, capacity, len, mark };
        refusals::read(&store, &self.lent)?;
        self.begin(store);
        self.samples = rules::samples(&bytes, unit);
        Ok(said.values())
    }

    fn salvage(&mut self, capacity: u64, count: u64, list: u64) -> Answer {
        refusals::capacity(capacity)?;
        let first = self.files.first(count as usize);
        let said = file::says(&first).ok_or(17u64)?;
        let Said { unit, len, mark } = said;
        let store = Store { unit, capacity, len, mark };
        refusals::read(&store, &self.lent)?;
        let salvaged = Salvaged::new(said, &first);
        if first.len() <= SMALL {
            assert!(salvaged.known_otherwise(&first), "two ways, one answer");
        }
        let stretches = salvaged.stretches();
        refusals::salvage(stretches.len() as u64, list)?;
        self.begin(store);
        self.samples = salvaged.stored();
        Ok(salvage::values(said, &stretches))
    }

    fn append(&mut self, bytes: &[u8]) -> Answer {
        refusals::store(&self.store, &self.lent)?;
        let taken = rules::samples(bytes, self.store.unit);
        if self.samples.len() + taken.len() > self.store.capacity as usize {
            return Err(8);
        }
        self.samples.extend(taken);
        self.store.len = self.samples.len() as u64;
        Ok(vec![self.store.len])
    }

    fn start(&mut self, settings: &Settings) -> Answer {
        let unit = rules::unit(settings.channels);
        let (capacity, limit) = (settings.capacity, settings.limit);
        let store = Store { unit, capacity, len: 0, mark: None };
        refusals::start(settings, &store, &self.lent)?;
        let (pre, cut) = rules::pre(settings.wish, limit, settings.rate, unit);
        let recording = Recording {
            settings: settings.clone(),
            record: Recorder { limit, pre, kept: 0, place: 0 },
            accepted: Vec::new(),
            armed: !settings.terms.is_empty(),
            previous: None,
        };
        self.begin(store);
        self.recorder = Some(recording);
        Ok(vec![unit, pre, cut as u64])
    }

    /// Selection over all accepted pushes and this one decides.
    fn push(&mut self, bytes: &[u8]) -> Answer {
        let (store, lent) = (self.store, self.lent);
        let r = self.recording();
        refusals::push(&store, &r.record, &lent)?;
        let Recorder { limit, pre, .. } = r.record;
        let before = r.accepted.len();
        r.accepted.extend(rules::samples(bytes, store.unit));
        let all = &r.accepted;
        let run = rules::select(&r.settings, pre, all);
        if run.end - run.start > store.capacity as usize {
            r.accepted.truncate(before);
            return Err(8);
        }
        r.armed = !r.settings.terms.is_empty() && run.fired.is_none();
        if r.armed {
            let count = all.len() as u64;
            r.record.kept = count.min(pre);
            r.record.place = count.checked_rem(pre).unwrap_or(0);
            r.previous = all.last().copied();
        } else {
            (r.record.kept, r.record.place) = (0, 0);
            r.previous = run.fired.map(|t| all[t]);
        }
        let armed = r.armed;
        self.samples = self.recording().accepted[run.start..run.end].to_vec();
        self.store.len = self.samples.len() as u64;
        self.store.mark = run.mark;
        Ok(vec![(!armed && limit > 0 && self.store.len == limit) as u64])
    }

    /// Length and digest of a chunk's bytes.
    fn raw(&self, chunk: u64) -> Vec<u64> {
        let part = self.samples.chunks(1 << 20).nth(chunk as usize);
        let part = part.filter(|_| !self.refuses()).unwrap_or(&[]);
        let bytes = to_bytes(part, self.store.unit);
        vec![bytes.len() as u64, digest(bytes.into_iter().map(u64::from))]
    }

    /// Append leaves right nodes, so a wrong one is among those written by hand.
    fn whole(&self) -> Vec<u64> {
        let numbers = NUMBERS as u64;
        let wrong = |&&(level, index, value): &&(u64, u64, u16)| {
            let right = self.right(level as u32, index / numbers);
            right.is_some_and(|node| node.numbers()[(index % numbers) as usize] != value)
        };
        let first = self.puts.iter().filter(wrong).map(|&(l, i, _)| (l, i / numbers)).min();
        match first {
            None => vec![1],
            Some((level, number)) => vec![0, level, number],
        }
    }

    /// The node of a level's range; of level 0, a sample. None where it covers none that is stored.
    fn right(&self, level: u32, number: u64) -> Option<Node> {
        let (a, b) = (number * span(level), (number + 1) * span(level));
        let [first, last, toggles] = rules::summary(&self.samples, a, b)?;
        let count = rules::density(&self.samples, a, b) as u32;
        Some(Node { first, last, toggles, count })
    }

    /// The node that memory holds: the right one, with the numbers that were written by hand.
    fn node(&self, level: u32, number: u64) -> Node {
        let mut numbers = self.right(level, number).expect("it covers a stored sample").numbers();
        for &(_, index, value) in self.puts.iter().filter(|put| put.0 == level as u64) {
            if index / NUMBERS as u64 == number {
                numbers[index as usize % NUMBERS] = value;
            }
        }
        Node::read(&numbers)
    }

    fn recording(&mut self) -> &mut Recording {
        self.recorder.as_mut().expect("a recorder was started")
    }
}

/// The answer to the last of these calls. Of several, none may be refused.
fn one(pieces: Vec<Vec<u8>>, mut call: impl FnMut(&[u8]) -> Answer) -> Answer {
    let several = pieces.len() > 1;
    let mut last = Ok(Vec::new());
    for piece in &pieces {
        last = call(piece);
        assert!(!several || last.is_ok(), "a feed of several pieces is refused");
    }
    last
}

pub fn optional<const N: usize>(found: Option<[u64; N]>) -> Vec<u64> {
    match found {
        None => vec![0],
        Some(values) => [1].into_iter().chain(values).collect(),
    }
}

/// A position below 0 stands as the number that its 64 bits make.
pub fn turned(turns: Turns) -> Vec<u64> {
    let Turns { position, forward, backward, skipped } = turns;
    vec![position as u64, forward, backward, skipped]
}

pub fn listed(numbers: &[u16]) -> Vec<u64> {
    let count = numbers.len() as u64;
    [count].into_iter().chain(numbers.iter().map(|&v| v as u64)).collect()
}
