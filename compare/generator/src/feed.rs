//! What an append or a push is given.

/// Runs and noise reach a call in pieces of this many samples, so that a reader needs little memory.
const PIECE: usize = 32_768;

#[derive(Clone, Debug)]
pub enum Feed {
    /// One call with these bytes.
    Bytes(Vec<u8>),
    /// Runs of equal samples, each a count and a value.
    Runs(Vec<(u64, u16)>),
    /// A repeatable mix: `x = (x × 1,664,525 + 1,013,904,223) mod 2^32` before each sample,
    /// which is `x / 65,536` under the mask.
    Noise { count: u64, seed: u64, mask: u16 },
}

impl Feed {
    /// The bytes of each call. Of runs and noise there is always one, even if it is empty.
    pub fn pieces(&self, unit: u64) -> Vec<Vec<u8>> {
        let samples: Vec<u16> = match self {
            Feed::Bytes(bytes) => return vec![bytes.clone()],
            Feed::Runs(runs) => {
                let run = |&(count, value): &(u64, u16)| vec![value; count as usize];
                runs.iter().flat_map(run).collect()
            }
            Feed::Noise { count, seed, mask } => noise(*count, *seed, *mask),
        };
        if samples.is_empty() {
            return vec![Vec::new()];
        }
        samples.chunks(PIECE).map(|piece| to_bytes(piece, unit)).collect()
    }
}

fn noise(count: u64, seed: u64, mask: u16) -> Vec<u16> {
    let mut x = seed;
    let mut sample = || {
        x = (x * 1_664_525 + 1_013_904_223) % (1 << 32);
        (x >> 16) as u16 & mask
    };
    (0..count).map(|_| sample()).collect()
}

/// Samples as bytes, low byte first.
pub fn to_bytes(samples: &[u16], unit: u64) -> Vec<u8> {
    let bytes = |sample: &u16| sample.to_le_bytes().into_iter().take(unit as usize);
    samples.iter().flat_map(bytes).collect()
}
