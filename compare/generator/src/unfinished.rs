//! Appends and pushes over memory that no list of calls made. As document 02's CR 2 says of level 1, the nodes of a level
//! that they write depend on len, its unfinished node and the new samples, their counts of changes too; what is stored before
//! is noise here, and searches, summaries, densities and encoders follow it.

use crate::document::{refusals::need, rules};
use crate::feed::Feed;
use crate::list::List;
use crate::mill::Run;
use crate::node::TOP;
use crate::noise;
use crate::op::{Op, Settings, Wish};
use crate::port::Port;
use crate::side::Side;
use rng::Rng;

#[derive(Default)]
pub struct Unfinished {
    pub port: Port,
    /// Appends and pushes made.
    pub made: u64,
}

impl Unfinished {
    pub fn ask(&mut self, list: &mut List, rng: &mut Rng) {
        let channels = rng.pick(&[8, 16]);
        let (capacity, len) = match rng.once_in(8) {
            // around the border between two nodes of level 3
            true => (36_000, 32_768 - rng.below(3_000)),
            false => {
                let capacity = 1 + rng.below(2_500);
                (capacity, rng.below(capacity + 1))
            }
        };
        let unit = rules::unit(channels);
        self.port.take(&Op::Lend(need(unit, capacity)));
        let recorder = rng.once_in(2);
        let wish = Wish::Seconds(0.0);
        let settings = Settings { channels, capacity, limit: 0, wish, rate: 0, terms: Vec::new() };
        self.port.take(&match recorder {
            true => Op::Start(settings),
            false => Op::Capture { channels, capacity },
        });
        self.port.hold(len as usize);
        for _ in 0..4 {
            let count = rng.pick(&[3, 3, 1, 31, 32, 33, 100, 1_100]) * unit + rng.below(2);
            let mut bytes: Vec<u8> = (0..count).map(|_| rng.number() as u8).collect();
            // Often no change after the sample before, or after the unfinished node of a level.
            let level = rng.below(10) as u32;
            if let Some(last) = (level <= TOP).then(|| self.port.last(level)).flatten() {
                let unit = unit as usize;
                bytes[..unit].copy_from_slice(&last.to_le_bytes()[..unit]);
            }
            let bytes = Feed::Bytes(bytes);
            self.port.take(&if recorder { Op::Push(bytes) } else { Op::Append(bytes) });
            self.made += 1;
        }
        for fault in self.port.faults() {
            list.asker().differs(&format!("memory that no call made: {fault}"));
        }
        let run = Run { len: self.port.len(), mark: 0 };
        noise::searches(&mut self.port, list, rng, run);
        noise::densities(&mut self.port, list, rng);
        noise::encoders(&mut self.port, list, rng);
    }
}
