//! The calls that search across unknown stretches. Each takes the list of these behind the lent memory.

use crate::{calls, Lent, Record};

/// Record, lent memory, stretches, mask, from, place.
pub type Search = fn(&Record, Lent, &[usize], u16, usize, &mut usize) -> u32;

macro_rules! searches {
    ($($(#[$comment:meta])* $name:ident, $call:ident;)*) => {$(
        $(#[$comment])*
        #[inline]
        pub fn $name(
            record: &Record,
            lent: Lent,
            stretches: &[usize],
            mask: u16,
            from: usize,
            place: &mut usize,
        ) -> u32 {
            let (list, numbers) = (stretches.as_ptr(), stretches.len());
            lent!($call, (record), lent, as_ptr, (list, numbers, mask, from, place))
        }
    )*};
}

searches! {
    /// The next change that is there whatever the unknown samples were.
    next_certain, lc_next_certain;
    prev_certain, lc_prev_certain;
    /// The next change that is there for some of what they may have been.
    next_possible, lc_next_possible;
    prev_possible, lc_prev_possible;
}
