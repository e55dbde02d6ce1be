//! A mill's reader by CR 1 and CR 6: the rules over the run cut down to granted lines, at places that count from the mark.

use super::{listed, optional, refusals, rules, turned};
use crate::op::{Ask, Burst, Mill};
use crate::side::Answer;

/// Over a store that rows 1 and 2 don't refuse.
pub fn answer(s: &[u16], mark: Option<u64>, &Mill { grant, ask }: &Mill) -> Answer {
    let seen: Vec<u16> = s.iter().map(|v| v & grant).collect();
    let len = seen.len() as u64;
    let origin = mark.unwrap_or(0);
    let counted = |place: u64| (place as i128 - origin as i128) as i64 as u64;
    // 13: a place before the first sample.
    let place = |place: i64| u64::try_from(place as i128 + origin as i128).map_err(|_| 13u64);
    // 12: a search or burst mask beyond the grant, and then 13.
    let searched = |mask: u16, from: i64| if mask & !grant != 0 { Err(12) } else { place(from) };
    Ok(match ask {
        Ask::Extent => vec![counted(0), counted(len), mark.is_some() as u64],
        Ask::Get(at) => match seen.get(place(at)? as usize) {
            Some(&sample) => vec![sample as u64],
            None => return Err(9),
        },
        Ask::Samples { start, count, output } => {
            let start = place(start)?;
            let end = start.saturating_add(count).min(len);
            let part = &seen[start.min(end) as usize..end as usize];
            if output < part.len() as u64 {
                return Err(11);
            }
            listed(part)
        }
        Ask::Summary { a, b } => {
            let (a, b) = (place(a)?, place(b)?);
            optional(rules::summary(&seen, a, b).map(|node| node.map(u64::from)))
        }
        Ask::Next { mask, from } => {
            let from = searched(mask, from)?;
            optional(rules::next(&seen, mask, from).map(|place| [counted(place)]))
        }
        Ask::Prev { mask, from } => {
            let from = searched(mask, from)?;
            optional(rules::prev(&seen, mask, from).map(|place| [counted(place)]))
        }
        Ask::Burst { mask, sample, max_gap, tolerance, budget } => {
            let sample = searched(mask, sample)?;
            let burst = rules::burst(&seen, &Burst { mask, sample, max_gap, tolerance, budget });
            optional(burst.map(|[first, last, at_end, at_start]| {
                [counted(first), counted(last), at_end, at_start]
            }))
        }
        Ask::Render(view) => {
            refusals::render(&view)?;
            listed(&rules::render_from(&seen, origin, &view))
        }
        Ask::Encoder { a, b } => {
            refusals::mill_encoder(grant, a, b)?;
            turned(rules::encoder(&seen, a, b))
        }
    })
}
