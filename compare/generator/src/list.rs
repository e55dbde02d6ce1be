//! A list in the making: the text of an answer file.

use crate::asker::Asker;
use crate::document::{refusals, rules};
use crate::feed::{to_bytes, Feed};
use crate::op::{Lent, Op, Settings};

pub struct List {
    asker: Asker,
    text: String,
    lent: Lent,
}

impl List {
    pub fn new() -> List {
        List { asker: Asker::new(), text: String::new(), lent: Lent::default() }
    }

    /// Every line is asked of the port too.
    pub fn with_port() -> List {
        List { asker: Asker::with_port(), ..List::new() }
    }

    pub fn asker(&mut self) -> &mut Asker {
        &mut self.asker
    }

    /// The text so far; the list begins anew.
    pub fn text(&mut self) -> String {
        std::mem::take(&mut self.text)
    }

    /// Asks, and writes the line down.
    pub fn say(&mut self, op: Op) {
        let line = self.asker.ask(&op);
        self.write(&line);
    }

    /// Asks, and writes the line down if it is to be kept.
    pub fn say_if(&mut self, op: Op, kept: bool) {
        let line = self.asker.ask(&op);
        if kept {
            self.write(&line);
        }
    }

    /// Asks only. The line may be written down later.
    pub fn ask(&mut self, op: Op) -> String {
        self.asker.ask(&op)
    }

    pub fn write(&mut self, line: &str) {
        self.text += line;
        self.text.push('\n');
    }

    /// Lends memory of these lengths from here on.
    pub fn lend(&mut self, lent: Lent) {
        if lent != self.lent {
            self.lent = lent;
            self.say(Op::Lend(lent));
        }
    }

    pub fn lent(&self) -> Lent {
        self.lent
    }

    /// Puts bytes into file memory, by a line for each that is another there.
    pub fn put_file(&mut self, from: usize, bytes: &[u8]) {
        for (at, &byte) in (from..).zip(bytes) {
            if self.asker.document().files().at(at) != byte {
                self.say(Op::PutFile { at: at as u64, byte });
            }
        }
    }

    /// A store over exactly the memory that it needs.
    pub fn capture(&mut self, channels: u64, capacity: u64) {
        self.lend(refusals::need(rules::unit(channels), capacity));
        self.say(Op::Capture { channels, capacity });
    }

    /// A store that one append has filled with these samples.
    pub fn holding(&mut self, channels: u64, capacity: u64, samples: &[u16]) {
        self.capture(channels, capacity);
        if !samples.is_empty() {
            self.say(append(channels, samples));
        }
    }

    /// Lends exactly what a recorder needs.
    pub fn lend_for(&mut self, s: &Settings) {
        let unit = rules::unit(s.channels);
        let (pre, _) = rules::pre(s.wish, s.limit, s.rate, unit);
        self.lend(Lent { ring: pre * unit, ..refusals::need(unit, s.capacity) });
    }

    pub fn start(&mut self, settings: &Settings) {
        self.lend_for(settings);
        self.say(Op::Start(settings.clone()));
    }
}

pub fn append(channels: u64, samples: &[u16]) -> Op {
    Op::Append(Feed::Bytes(to_bytes(samples, rules::unit(channels))))
}
