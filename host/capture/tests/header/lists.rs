//! The list of lc_salvage: two numbers for each unknown stretch are enough, those behind them stay, and a shorter list is
//! refused.

use crate::calls;
use crate::given::{Given, Lent, MARK, NODE};
use crate::plain::file::file;
use capture::BLOCK;

/// Samples of two bytes: five blocks, the last of 200 samples.
const LEN: usize = 1200;

/// A file of which some blocks are bad, memory for it, and a list of so many numbers.
fn given(bad: &[usize], numbers: usize) -> Given {
    let mut given = Given::new();
    given.capacity = LEN;
    given.samples = vec![9; 2 * LEN];
    given.levels =
        [32, 1024, 32_768, 1_048_576].map(|span: usize| vec![9; NODE * LEN.div_ceil(span)]);
    given.file = file(2, Some(MARK), &[0x102; LEN]);
    bad.iter().for_each(|number| given.file[number * BLOCK + 99] ^= 1);
    given.stretches = numbers;
    given
}

#[test]
fn a_list_holds_two_numbers_a_stretch() {
    for (bad, pairs) in [
        (&[][..], &[][..]),
        (&[2], &[250, 250]),
        (&[2, 3], &[250, 500]),
        (&[1, 5], &[0, 250, 1000, 200]),
        (&[1, 3, 5], &[0, 250, 500, 250, 1000, 200]),
    ] {
        for numbers in 0..8 {
            let lent = Lent::new(given(bad, numbers));
            let code = calls::salvage(&lent);
            // SAFETY: so much was put there.
            let (list, samples, begun, counts) = unsafe {
                (
                    std::slice::from_raw_parts(lent.stretches, numbers),
                    std::slice::from_raw_parts(lent.samples, 2 * LEN),
                    *lent.begun,
                    *lent.numbers,
                )
            };
            if numbers < pairs.len() {
                assert_eq!(code, 15, "{bad:?} {numbers}");
                assert!(list.iter().all(|&number| number == 77));
                assert!(samples.iter().all(|&byte| byte == 9));
                assert_eq!((begun, counts), ([77; 17], [77; 5]));
                continue;
            }
            assert_eq!(code, 0, "{bad:?} {numbers}");
            assert_eq!(list, [pairs, &vec![77; numbers - pairs.len()]].concat());
            assert_eq!((&begun[..5], &begun[5..]), (&[2, LEN, LEN, 1, MARK][..], &[77; 12][..]));
            let replaced = pairs.chunks(2).map(|pair| pair[1]).sum();
            assert_eq!(counts, [pairs.len() / 2, replaced, 77, 77, 77]);
            let unknown = |place| pairs.chunks(2).any(|p| (p[0]..p[0] + p[1]).contains(&place));
            for (place, sample) in samples.chunks(2).enumerate() {
                assert_eq!(sample, if unknown(place) { [0, 0] } else { [2, 1] }, "{bad:?} {place}");
            }
        }
    }
}
