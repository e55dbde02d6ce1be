//! Changes across unknown stretches (CR 9) in captures of any length, by the law that its fillings come to: between two known
//! samples the stored ones decide; beside an unknown one no change is certain, and one is possible on any line of the unit.
//! fillings.rs tries the fillings themselves.

use super::rules::{self, changes, lines};
use crate::op::{Across, Sort};

pub fn search(s: &[u16], unit: u64, across: &Across) -> Option<u64> {
    let Across { sort, way, mask, from, ref stretches } = *across;
    let mut known = vec![true; s.len()];
    for stretch in stretches.chunks(2) {
        known[stretch[0] as usize..][..stretch[1] as usize].fill(false);
    }
    rules::search(way, from, s.len() as u64, |i| match sort {
        _ if known[i as usize] && known[i as usize - 1] => changes(s, i, mask),
        Sort::Certain => false,
        Sort::Possible => mask & lines(unit) != 0,
    })
}
