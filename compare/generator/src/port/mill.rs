//! The calls of a mill's reader. Negative places are given as 64 bits.

use super::{found, said, Port, UNREAD};
use crate::document::listed;
use crate::op::{Ask, Burst, Mill, Way};
use crate::side::Answer;
use port::mill::Asked;
use port::{record, Lent, Record};

impl Port {
    pub fn mill(&mut self, Mill { grant, ask }: Mill) -> Answer {
        match ask {
            Ask::Extent => {
                let before = (-71, -72, 73);
                let (mut first, mut end, mut marked) = before;
                let (record, lent) = (&self.record, self.lent());
                let code = port::mill::extent(record, lent, &mut first, &mut end, &mut marked);
                self.kept(code, "extent", before, (first, end, marked));
                said(code, || vec![first as u64, end as u64, marked as u64])
            }
            Ask::Get(place) => {
                let mut value = 0xA5C3;
                let code = port::mill::get(&self.record, self.lent(), grant, place, &mut value);
                self.kept(code, "value", 0xA5C3, value);
                said(code, || vec![value as u64])
            }
            Ask::Samples { start, count, output } => {
                self.samples(output, |record, lent, output, copied| {
                    port::mill::samples(record, lent, grant, start, count as usize, output, copied)
                })
            }
            Ask::Summary { a, b } => {
                let before = [0xA5C3, 1, 2];
                let mut node = before;
                let code = port::mill::summary(&self.record, self.lent(), grant, a, b, &mut node);
                self.kept(code, "node", before, node);
                found(code, node.map(u64::from))
            }
            Ask::Next { mask, from } => {
                self.change(port::mill::next_change, Way::Next, grant, mask, from)
            }
            Ask::Prev { mask, from } => {
                self.change(port::mill::prev_change, Way::Prev, grant, mask, from)
            }
            Ask::Burst { mask, sample, max_gap, tolerance, budget } => {
                self.burst_of_mill(grant, mask, sample, [max_gap, tolerance, budget])
            }
            Ask::Render(view) => {
                let (start, spp, width) = (view.start, view.spp, view.width as usize);
                let call = |record: &Record, lent: Lent, output: &mut [u16]| {
                    port::mill::render(record, lent, grant, start, spp, width, output)
                };
                self.render(view, call, listed)
            }
            Ask::Encoder { a, b } => self.encoder(|record, lent, position, counts| {
                port::mill::encoder(record, lent, grant, a as usize, b as usize, position, counts)
            }),
        }
    }

    fn change(
        &mut self,
        call: impl Fn(&Record, Lent, u16, u16, i64, &mut i64, &mut usize) -> u32,
        way: Way,
        grant: u16,
        mask: u16,
        from: i64,
    ) -> Answer {
        let (mut place, mut read) = (-61, UNREAD);
        let code = call(&self.record, self.lent(), grant, mask, from, &mut place, &mut read);
        self.kept(code, "place", -61, place);
        self.searched(code, [place as u64], read, |port| {
            let walked = port.walk(mask).search(way, port.run_place(from));
            walked.map(|place| [port.counted(place)])
        })
    }

    fn burst_of_mill(&mut self, grant: u16, mask: u16, sample: i64, bounds: [u64; 3]) -> Answer {
        let [max_gap, tolerance, budget] = bounds.map(|n| n as usize);
        let asked = Asked { mask, sample, max_gap, tolerance, budget };
        let before = ([-51, -52], [53, 54]);
        let ((mut ends, mut jumps), mut read) = (before, UNREAD);
        let (record, lent) = (&self.record, self.lent());
        let code =
            port::mill::burst_at(record, lent, grant, asked, &mut ends, &mut jumps, &mut read);
        self.kept(code, "burst", before, (ends, jumps));
        let ([first, last], [at_end, at_start]) = (ends, jumps);
        let values = [first as u64, last as u64, at_end as u64, at_start as u64];
        self.searched(code, values, read, |port| {
            let [max_gap, tolerance, budget] = bounds;
            let sample = port.run_place(sample);
            let burst = Burst { mask, sample, max_gap, tolerance, budget };
            port.walk(mask).burst(&burst).map(|[first, last, at_end, at_start]| {
                [port.counted(first), port.counted(last), at_end, at_start]
            })
        })
    }

    /// Where the mill's places count from.
    fn origin(&self) -> u64 {
        if self.record[record::MARKED] == 0 {
            0
        } else {
            self.record[record::MARK] as u64
        }
    }

    /// The place of the run that a mill's place is. One before the first sample is refused, and nothing walks from it.
    fn run_place(&self, place: i64) -> u64 {
        self.origin().wrapping_add_signed(place)
    }

    /// A place of the run as the mill counts.
    fn counted(&self, place: u64) -> u64 {
        place.wrapping_sub(self.origin())
    }
}
