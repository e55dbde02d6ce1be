//! The Rust has no reader for mills. This is its own answer, cut down to the grant and moved by the mark, to a question that
//! the document does not refuse.

use super::burst_and_jumps;
use crate::document::{listed, optional};
use crate::op::{Ask, Burst, Mill, View};
use edgewise::capture::Snapshot;

pub fn answer(snapshot: &Snapshot, &Mill { grant, ask }: &Mill) -> Option<Vec<u64>> {
    let mark = snapshot.meta.trigger;
    let origin = mark.unwrap_or(0);
    let place = |place: i64| origin.wrapping_add_signed(place);
    let counted = |place: u64| place.wrapping_sub(origin);
    let cut = |numbers: Vec<u16>| numbers.into_iter().map(|v| v & grant).collect::<Vec<_>>();
    Some(match ask {
        Ask::Extent => vec![counted(0), counted(snapshot.len), mark.is_some() as u64],
        Ask::Get(at) => vec![(snapshot.get(place(at)) & grant) as u64],
        Ask::Samples { start, count, .. } => listed(&cut(snapshot.samples(place(start), count))),
        Ask::Summary { a, b } => {
            let node = snapshot.summary(place(a), place(b));
            optional(node.map(|n| [n.first, n.last, n.mask].map(|v| (v & grant) as u64)))
        }
        Ask::Next { mask, from } => {
            optional(snapshot.next_change(mask, place(from)).map(|i| [counted(i)]))
        }
        Ask::Prev { mask, from } => {
            optional(snapshot.prev_change(mask, place(from)).map(|i| [counted(i)]))
        }
        Ask::Burst { mask, sample, max_gap, tolerance, budget } => {
            let burst = Burst { mask, sample: place(sample), max_gap, tolerance, budget };
            let found = burst_and_jumps(snapshot, &burst);
            optional(found.map(|[first, last, at_end, at_start]| {
                [counted(first), counted(last), at_end, at_start]
            }))
        }
        // A view that is moved by the mark has other roundings, unless all its sums are exact.
        Ask::Render(view) if exact(&view) => {
            let start = view.start + origin as f64;
            listed(&cut(snapshot.render(start, view.spp, view.width as usize)))
        }
        Ask::Render(_) | Ask::Encoder { .. } => return None,
    })
}

/// Whole numbers and halves so small that no product and no sum of them is rounded, moved by a mark or not.
fn exact(view: &View) -> bool {
    let halves = |x: f64, most: f64| (2.0 * x).fract() == 0.0 && x.abs() <= most;
    halves(view.start, 1e12) && halves(view.spp, 1e9)
}
