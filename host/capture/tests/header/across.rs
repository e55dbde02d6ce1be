//! Lists of unknown stretches that searches take, up to the borders of what `rows::STRETCHES` refuses: a place that was found is
//! written, and where there is none, nothing.

use crate::calls;
use crate::given::{Given, Lent, LEN};
use crate::plain::unknown::{next, prev, Across};
use capture::{Lines, Stretch};

#[test]
fn lists_up_to_the_borders_are_taken() {
    let every_second: Vec<usize> = (0..LEN).step_by(2).flat_map(|first| [first, 1]).collect();
    for list in [
        &[][..],
        &[0, 1],
        &[0, LEN],
        &[LEN - 1, 1],
        &[1, LEN - 1],
        &[0, 7, 8, LEN - 8],
        &[10, 3, 14, 2, LEN - 9, 9],
        &every_second,
    ] {
        let stretch = |pair: &[usize]| Stretch { first: pair[0], count: pair[1] };
        let stretches: Vec<_> = list.chunks(2).map(stretch).collect();
        // Line 0 changes at every place, line 1 at each fourth, line 2 never.
        for mask in [0, 0b1, 0b10, 0b100, 0xffff] {
            for place in [0, 1, 7, 8, 13, LEN - 1, LEN, usize::MAX] {
                let mut given = Given::new();
                (given.unknown, given.mask, given.place) = (list.to_vec(), mask, place);
                let pairs = given.samples.chunks(2).take(LEN);
                let run: Vec<Lines> = pairs.map(|low| low[0].into()).collect();
                let Across { certain, possible } = Across::by_pairs(&run, 2, &stretches, mask);
                let asked = [
                    (calls::next_certain as fn(&Lent) -> u32, next(&certain, place)),
                    (calls::prev_certain, prev(&certain, place)),
                    (calls::next_possible, next(&possible, place)),
                    (calls::prev_possible, prev(&possible, place)),
                ];
                for (call, found) in asked {
                    let lent = Lent::new(given.clone());
                    let code = call(&lent);
                    // SAFETY: so much was put there.
                    let numbers = unsafe { *lent.numbers };
                    let due = (if found.is_some() { 0 } else { 100 }, found.unwrap_or(77));
                    assert_eq!((code, numbers[0]), due, "{list:?} {mask} {place}");
                    assert_eq!(numbers[1..], [77; 4]);
                }
            }
        }
    }
}
