//! Searches across unknown stretches. Over any memory what is found lies in the part that is asked about. Without stretches it
//! is what the port's own ordinary search finds; a possible change is this where calls made the memory: the nodes of other
//! memory may speak of lines that the unit lacks, and no filling has these.

use super::memory::GUARD;
use super::{found, Port};
use crate::op::{Across, Sort, Way};
use crate::side::Answer;
use port::unknown::{next_certain, next_possible, prev_certain, prev_possible, Search};
use port::NONE;

/// What stands behind the pointer to a place before a call. No place is that high.
const UNFOUND: usize = usize::MAX / 7;

impl Port {
    pub fn across(&mut self, across: &Across) -> Answer {
        let Across { sort, way, mask, from, ref stretches } = *across;
        let call: Search = match (sort, way) {
            (Sort::Certain, Way::Next) => next_certain,
            (Sort::Certain, Way::Prev) => prev_certain,
            (Sort::Possible, Way::Next) => next_possible,
            (Sort::Possible, Way::Prev) => prev_possible,
        };
        // Behind the list stands what would be a bad stretch.
        let numbers = stretches.iter().map(|&number| number as usize);
        let list: Vec<usize> = numbers.chain([0; GUARD]).collect();
        let (mut place, from) = (UNFOUND, from as usize);
        let lent = list.clone();
        let part = &lent[..stretches.len()];
        let code = call(&self.record, self.lent(), part, mask, from, &mut place);
        self.same("list", list, lent);
        self.kept(code, "place", UNFOUND, place);
        if code == 0 {
            self.within(way, from, place);
        }
        if stretches.is_empty() && (self.made || sort == Sort::Certain) {
            self.beside_ordinary(way, mask, from, (code, place));
        }
        self.across += (code == 0 || code == NONE) as u64;
        found(code, [place as u64])
    }

    fn within(&mut self, way: Way, from: usize, place: usize) {
        let asked = match way {
            Way::Next => from < place,
            Way::Prev => 1 <= place && place <= from,
        };
        if !asked || place as u64 >= self.len() {
            self.faults.push(format!("{place} is found of {} places from {from} on", self.len()));
        }
    }

    fn beside_ordinary(&mut self, way: Way, mask: u16, from: usize, is: (u32, usize)) {
        let search = match way {
            Way::Next => port::next_change,
            Way::Prev => port::prev_change,
        };
        let mut place = UNFOUND;
        let code = search(&self.record, self.lent(), mask, from, &mut place, &mut 0);
        self.same("search without stretches", (code, place), is);
        self.ordinary += 1;
    }
}
