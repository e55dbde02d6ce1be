//! The calls of shelf files. A file that is written is that of what memory holds, whatever this is. What is read is the
//! capture that has the file, as the port's own append leaves it in a fresh store, and writing it gives the file again.

use super::memory::{pattern, Memory, GUARD};
use super::{said, Port};
use crate::digest::digest;
use crate::document::file::{self, Capture, Said};
use crate::document::refusals;
use crate::op::Store;
use crate::side::Answer;
use port::{record, Record};

/// What stands behind the pointer to a length before a call. No file is that long.
const UNMEASURED: usize = usize::MAX / 5;

impl Port {
    pub fn file_len(&mut self) -> Answer {
        let mut len = UNMEASURED;
        let code = port::file::len(&self.record, &mut len);
        self.kept(code, "file's length", UNMEASURED, len);
        said(code, || vec![len as u64])
    }

    pub fn says(&mut self, count: u64) -> Answer {
        let file = self.lent_file(count);
        let before = [61, 62, 63, 64];
        let mut values = before;
        let code = port::file::says(&file[..count as usize], &mut values);
        self.same_file("that is lent", &self.lent_file(count), &file);
        self.kept(code, "what a file says", before, values);
        said(code, || values.map(|n| n as u64).to_vec())
    }

    pub fn write(&mut self, output: u64) -> Answer {
        let room = output as usize;
        let before: Vec<u8> = (0..room + GUARD).map(pattern).collect();
        let (mut after, mut len) = (before.clone(), UNMEASURED);
        let code = port::file::write(&self.record, self.lent(), &mut after[..room], &mut len);
        self.kept(code, "file's length", UNMEASURED, len);
        let written = if code == 0 { len.min(room) } else { 0 };
        if before[written..] != after[written..] {
            self.faults.push("output past the file changed".into());
        }
        let file = &after[..written];
        if code == 0 {
            let right = self.file();
            self.same_file("written", &right, file);
            self.files.hold(file);
            self.writes += 1;
        }
        said(code, || vec![len as u64, digest(file.iter().map(|&byte| byte as u64))])
    }

    pub fn read(&mut self, capacity: u64, count: u64) -> Answer {
        let file = self.lent_file(count);
        let part = &file[..count as usize];
        let fresh = self.memory.part(&self.lent);
        let before = [91, 92, 93, 94, 95];
        let mut record = before;
        let (lent, _) = self.memory.lent_mut(&self.lent);
        let code = port::file::read(capacity as usize, part, lent, &mut record);
        self.same_file("that is lent", &self.lent_file(count), &file);
        self.kept(code, "record", before, record);
        if code == 0 {
            self.recording = None;
            self.made = true;
            self.record = record;
            self.reads += 1;
            self.taken(capacity, part, fresh);
        }
        let values = [record::UNIT, record::LEN, record::MARKED, record::MARK];
        said(code, || values.map(|at| record[at] as u64).to_vec())
    }

    /// What a read must have left. Fresh is what memory held before.
    fn taken(&mut self, capacity: u64, file: &[u8], fresh: Memory) {
        let Some(Capture { said, bytes }) = file::read(file) else {
            self.faults.push("a file is read that no capture has".into());
            return;
        };
        let Said { unit, len, mark } = said;
        let store = Store { unit, capacity, len, mark };
        if refusals::read(&store, &self.lent).is_err() {
            self.faults.push("a file is read into too little memory".into());
            return;
        }
        self.is_appended(store, &bytes, fresh);
        self.is_written(file);
        let count = file.len() as u64;
        let (measured, told) = (self.file_len(), self.says(count));
        self.same("file's length", Ok(vec![count]), measured);
        self.same("what the file says", Ok(said.values()), told);
    }

    /// The record is that of a store, and it and memory are what the port's own append of these bytes makes of a fresh one;
    /// the levels are whole.
    pub fn is_appended(&mut self, store: Store, bytes: &[u8], mut fresh: Memory) {
        let Store { unit, capacity, mark, .. } = store;
        self.right.append(unit as usize, 0, bytes);
        let mut appended: Record = [unit as usize, capacity as usize, 0, 0, 0];
        let (lent, _) = fresh.lent_mut(&self.lent);
        self.same("append's code", 0, port::append(&mut appended, lent, bytes));
        if let Some(mark) = mark {
            (appended[record::MARKED], appended[record::MARK]) = (1, mark as usize);
        }
        self.same("record", appended, self.record);
        self.same_memory("append's", &fresh);
        let whole = port::whole(&self.record, self.lent(), &mut 0, &mut 0);
        self.same("whole's code", 0, whole);
    }

    /// Writing what is held gives this file.
    pub fn is_written(&mut self, file: &[u8]) {
        let (mut again, mut len) = (vec![0xA5; file.len()], UNMEASURED);
        let code = port::file::write(&self.record, self.lent(), &mut again, &mut len);
        self.same("writing again", (0, file.len()), (code, len));
        self.same_file("written again", file, &again);
    }

    /// The first bytes of file memory, with what stands behind them.
    pub fn lent_file(&self, count: u64) -> Vec<u8> {
        self.files.first(count as usize + GUARD)
    }

    /// The file of what memory holds.
    fn file(&self) -> Vec<u8> {
        let [unit, len, marked, mark] =
            [record::UNIT, record::LEN, record::MARKED, record::MARK].map(|at| self.record[at]);
        let mark = (marked != 0).then_some(mark as u64);
        file::file_of(unit as u64, mark, len as u64, &self.memory.samples[..len * unit])
    }

    pub fn same_memory(&mut self, whose: &str, right: &Memory) {
        let part = self.memory.part(&self.lent);
        if part != *right {
            let place = part.first_difference(right);
            self.faults.push(format!("memory is not {whose}: {place}"));
        }
    }

    pub fn same_file(&mut self, which: &str, right: &[u8], is: &[u8]) {
        if right != is {
            let place = right.iter().zip(is).position(|(right, is)| right != is);
            let lengths = (right.len(), is.len());
            self.faults.push(format!("the file {which} differs at {place:?}, lengths {lengths:?}"));
        }
    }
}
