//! Salvage, the call for files with bad blocks. It leaves what the port's own append of the samples, zeros among them, leaves
//! in a fresh store. Beside it the port's own read is given the same file and the same memory; and what was salvaged is
//! written and read again.

use super::memory::{pattern, Memory, GUARD};
use super::{said, Port};
use crate::digest::digest;
use crate::document::file::{self, Said};
use crate::document::salvage::Salvaged;
use crate::document::{refusals, rules};
use crate::feed::to_bytes;
use crate::op::Store;
use crate::side::Answer;
use port::{out, record, Record};

/// What a place of the list holds before a call. No stretch has such a number.
fn unlisted(place: usize) -> usize {
    usize::MAX / 3 - pattern(place) as usize
}

impl Port {
    pub fn salvage(&mut self, capacity: u64, count: u64, list: u64) -> Answer {
        let file = self.lent_file(count);
        let part = &file[..count as usize];
        let fresh = self.memory.part(&self.lent);
        let room = list as usize;
        let unlisted: Vec<usize> = (0..room + GUARD).map(unlisted).collect();
        let before = ([91, 92, 93, 94, 95], [96, 97]);
        let (mut stretches, (mut record, mut counts)) = (unlisted.clone(), before);
        let (lent, _) = self.memory.lent_mut(&self.lent);
        let code = port::file::salvage(
            capacity as usize,
            part,
            lent,
            &mut stretches[..room],
            &mut record,
            &mut counts,
        );
        self.same_file("that is lent", &self.lent_file(count), &file);
        self.kept(code, "record", before, (record, counts));
        let [found, replaced] =
            [out::SALVAGED_STRETCHES, out::SALVAGED_REPLACED].map(|at| counts[at]);
        let listed = if code == 0 { found.saturating_mul(2).min(room) } else { 0 };
        if unlisted[listed..] != stretches[listed..] {
            self.faults.push("list past the stretches changed".into());
        }
        stretches.truncate(listed);
        if code == 0 {
            self.recording = None;
            self.made = true;
            self.record = record;
            self.salvages += 1;
            self.stretches = stretches.clone();
            self.salvaged(capacity, part, &fresh, [found, replaced]);
        } else {
            self.same_memory("as it was", &fresh);
        }
        self.beside_read(code, capacity, part, fresh);
        let listed = digest(stretches.into_iter().map(|number| number as u64));
        let values = [record[record::UNIT], record[record::LEN], found, replaced];
        said(code, || values.into_iter().map(|n| n as u64).chain([listed]).collect())
    }

    /// What a salvage must have left. Fresh is what memory held before.
    fn salvaged(&mut self, capacity: u64, file: &[u8], fresh: &Memory, counts: [usize; 2]) {
        let Some(said) = file::says(file) else {
            self.faults.push("a file is salvaged without a block 0".into());
            return;
        };
        let Said { unit, len, mark } = said;
        let store = Store { unit, capacity, len, mark };
        if refusals::read(&store, &self.lent).is_err() {
            self.faults.push("a file is salvaged into too little memory".into());
            return;
        }
        let right = Salvaged::new(said, file);
        let stretches: Vec<usize> =
            right.stretches().into_iter().flatten().map(|n| n as usize).collect();
        let replaced = stretches.chunks(2).map(|stretch| stretch[1]).sum();
        self.same("counts", [stretches.len() / 2, replaced], counts);
        self.same("list", stretches, self.stretches.clone());
        let bytes = to_bytes(&right.stored(), unit);
        self.is_appended(store, &bytes, fresh.clone());
        let again = file::file_of(unit, mark, len, &bytes);
        self.is_written(&again);
        self.is_read(capacity, &again, fresh.clone());
    }

    /// "Read accepts exactly when salvage finds no stretch and the file has the exact length"; where salvage refuses, read
    /// does too, with 16 for 17.
    fn beside_read(&mut self, code: u32, capacity: u64, file: &[u8], mut fresh: Memory) {
        let length = file::says(file).map(|said| file::length(said.unit, said.len));
        if code == 0 && self.stretches.is_empty() && length == Some(file.len() as u64) {
            self.is_read(capacity, file, fresh);
            return;
        }
        let (lent, _) = fresh.lent_mut(&self.lent);
        let read = port::file::read(capacity as usize, file, lent, &mut [0; 5]);
        let right = match code {
            0 | 17 => 16,
            // A bad block may be there too, and comes first.
            15 if read == 16 => 16,
            _ => code,
        };
        self.same("read's code", right, read);
    }

    /// The port's own read of this file, into memory that holds this, leaves the record and the memory that are there.
    fn is_read(&mut self, capacity: u64, file: &[u8], mut fresh: Memory) {
        let mut record: Record = [91, 92, 93, 94, 95];
        let (lent, _) = fresh.lent_mut(&self.lent);
        let code = port::file::read(capacity as usize, file, lent, &mut record);
        self.same("read's code", 0, code);
        self.same("record", record, self.record);
        self.same_memory("read's", &fresh);
    }

    pub fn record(&self) -> Record {
        self.record
    }

    /// First place and count of each stretch that the last salvage reported.
    pub fn stretches(&self) -> impl Iterator<Item = (usize, usize)> + '_ {
        self.stretches.chunks_exact(2).map(|stretch| (stretch[0], stretch[1]))
    }

    /// The samples that are stored after a salvage; none where they lie in a stretch.
    pub fn known(&self) -> Vec<Option<u16>> {
        let [unit, len] = [record::UNIT, record::LEN].map(|at| self.record[at]);
        let samples = rules::samples(&self.memory.samples[..len * unit], unit as u64);
        let mut known: Vec<Option<u16>> = samples.into_iter().map(Some).collect();
        for (first, count) in self.stretches() {
            known.iter_mut().skip(first).take(count).for_each(|sample| *sample = None);
        }
        known
    }
}
