//! Where files are written and read. It begins with zeros, and there is as much as is asked for.

#[derive(Clone, Default)]
pub struct FileMemory(Vec<u8>);

impl FileMemory {
    /// The first so many bytes.
    pub fn first(&self, count: usize) -> Vec<u8> {
        let mut first = self.0[..count.min(self.0.len())].to_vec();
        first.resize(count, 0);
        first
    }

    pub fn at(&self, place: usize) -> u8 {
        self.0.get(place).copied().unwrap_or(0)
    }

    pub fn put(&mut self, at: usize, byte: u8) {
        self.reach(at + 1);
        self.0[at] = byte;
    }

    /// A file, at the start.
    pub fn hold(&mut self, file: &[u8]) {
        self.reach(file.len());
        self.0[..file.len()].copy_from_slice(file);
    }

    fn reach(&mut self, count: usize) {
        if self.0.len() < count {
            self.0.resize(count, 0);
        }
    }
}
