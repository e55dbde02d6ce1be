//! The recorder's calls of the port. What they must leave in memory is what selection takes from all pushes.

use super::{said, Port};
use crate::document::rules;
use crate::feed::to_bytes;
use crate::op::{Condition, Settings, Wish};
use crate::side::Answer;
use port::{record, recorder, Feeder, NONE};

pub struct Recording {
    settings: Settings,
    /// All samples of the accepted pushes.
    accepted: Vec<u16>,
}

fn condition(condition: Condition) -> u8 {
    match condition {
        Condition::Rising => 0,
        Condition::Falling => 1,
        Condition::Edge => 2,
        Condition::High => 3,
        Condition::Low => 4,
    }
}

impl Port {
    pub fn waits(&self) -> bool {
        self.own[recorder::WAITS] != 0
    }

    fn feeder(&self) -> Feeder {
        let mut feeder = self.own;
        feeder[..self.record.len()].copy_from_slice(&self.record);
        feeder
    }

    fn set(&mut self, feeder: Feeder) {
        self.record = std::array::from_fn(|at| feeder[at]);
        self.own = feeder;
    }

    pub fn start(&mut self, settings: &Settings) -> Answer {
        let terms: Vec<u8> =
            settings.terms.iter().flat_map(|t| [t.line, condition(t.condition)]).collect();
        let (seconds, wish) = match settings.wish {
            Wish::Fraction(p) => (false, p),
            Wish::Seconds(t) => (true, t),
        };
        let [channels, capacity, limit, rate] =
            [settings.channels, settings.capacity, settings.limit, settings.rate]
                .map(|n| n as usize);
        let asked =
            port::Settings { channels, capacity, limit, terms: &terms, seconds, wish, rate };
        let before = self.feeder();
        let (mut feeder, mut cut) = (before, 77);
        let ring = &self.memory.ring[..self.lent.ring as usize];
        let code = port::feeder_start(asked, self.lent(), ring, &mut feeder, &mut cut);
        self.kept(code, "recorder", (before, 77), (feeder, cut));
        if code == 0 {
            self.recording = Some(Recording { settings: settings.clone(), accepted: Vec::new() });
            self.made = true;
            self.set(feeder);
        }
        said(code, || vec![feeder[record::UNIT] as u64, feeder[recorder::PRE] as u64, cut as u64])
    }

    /// The record says that memory, whatever it holds, has this many samples; to a recorder they are its run so far.
    pub fn hold(&mut self, len: usize) {
        self.record[record::LEN] = len;
        self.made = false;
        if let Some(recording) = &mut self.recording {
            let unit = self.record[record::UNIT];
            recording.accepted = rules::samples(&self.memory.samples[..len * unit], unit as u64);
        }
    }

    pub fn push(&mut self, bytes: &[u8]) -> Answer {
        let before = self.feeder();
        let mut feeder = before;
        let (lent, ring) = self.memory.lent_mut(&self.lent);
        let code = port::push(&mut feeder, lent, ring, bytes);
        if code != 0 && code != NONE {
            self.same("recorder", before, feeder);
            return Err(code as u64);
        }
        let Some(mut recording) = self.recording.take() else {
            self.faults.push("a push that is not refused on no recorder".into());
            return Ok(Vec::new());
        };
        let [unit, len, pre] = [record::UNIT, record::LEN, recorder::PRE].map(|at| before[at]);
        let Recording { settings, accepted } = &mut recording;
        accepted.extend(rules::samples(bytes, unit as u64));
        let run = rules::select(settings, pre as u64, accepted);
        if !settings.terms.is_empty() && run.fired.is_none() {
            self.right.wait(unit, pre, before[recorder::RING_PLACE], bytes);
        } else {
            let new = &accepted[run.start..run.end][len..];
            self.right.append(unit, len, &to_bytes(new, unit as u64));
        }
        self.recording = Some(recording);
        // Unit, capacity, limit and pre stay; so do the masks while it waits.
        let fixed = |f: &Feeder| {
            [record::UNIT, record::CAPACITY, recorder::LIMIT, recorder::PRE].map(|at| f[at])
        };
        self.same("recorder", fixed(&before), fixed(&feeder));
        if feeder[recorder::WAITS] != 0 {
            let masks = |f: &Feeder| {
                [
                    recorder::WAITS,
                    recorder::HIGH_LINES,
                    recorder::LOW_LINES,
                    recorder::RISING_LINES,
                    recorder::FALLING_LINES,
                    recorder::EDGE_LINES,
                ]
                .map(|at| f[at])
            };
            self.same("masks", masks(&before), masks(&feeder));
        }
        self.set(feeder);
        Ok(vec![(code == NONE) as u64])
    }

    pub fn state(&mut self) -> Answer {
        let [known, previous, place, kept] =
            [recorder::KNOWN, recorder::PREVIOUS, recorder::RING_PLACE, recorder::KEPT]
                .map(|at| self.own[at] as u64);
        let previous = if known == 0 { 0 } else { previous };
        Ok(vec![kept, place, (known != 0) as u64, previous])
    }
}
