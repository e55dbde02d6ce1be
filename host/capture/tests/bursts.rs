//! Bursts whose budget was not reached are those of a list: the changes in groups, each once.

mod plain;

use capture::{Burst, Capture, Lines, ListedBurst};

/// The samples of the short captures, and a gap above all of theirs.
const LEN: usize = 12;
const MOST_GAP: usize = LEN + 1;

/// Each short capture: line 0 changes at chosen places, all choices of them.
fn short_captures() -> impl Iterator<Item = (Vec<Lines>, Capture)> {
    (0..1u32 << (LEN - 1)).map(|chosen| {
        let changes = |place: usize| (chosen & ((1 << place) - 1)).count_ones();
        let samples: Vec<Lines> = (0..LEN).map(|place| (changes(place) % 2) as Lines).collect();
        let mut capture = Capture::start(8, LEN).unwrap();
        capture.append(&plain::bytes(&samples, 1)).unwrap();
        (samples, capture)
    })
}

#[test]
fn all_bursts_of_all_short_captures() {
    let (mut most, mut captures) = (0, 0);
    for (samples, capture) in short_captures() {
        for gap in 0..=MOST_GAP {
            let listed = plain::bursts(&samples, 1, gap);
            assert!(capture.bursts(1, gap).eq(listed.iter().copied()), "{gap} {samples:?}");
            most = most.max(listed.len());
        }
        captures += 1;
    }
    // 1 2, 4 5, 7 8 and 10 11.
    assert_eq!((captures, most), (2048, 4));
}

/// Found from any place, with a tolerance or without, a burst whose budget was not reached is one of the list. So two of them
/// are the same or share no change.
#[test]
fn a_burst_from_anywhere_is_one_of_the_list() {
    let budgets = [1, 2, usize::MAX];
    for (samples, capture) in short_captures() {
        for gap in 0..=MOST_GAP {
            let listed = plain::bursts(&samples, 1, gap);
            let listed: Vec<[usize; 2]> =
                listed.iter().map(|burst| [burst.first, burst.last]).collect();
            for (place, tolerance) in (0..=LEN).flat_map(|place| [(place, 0), (place, gap / 2)]) {
                for budget in budgets {
                    let found = capture.burst_at(1, place, gap, tolerance, budget).found;
                    let unreached = |burst: &Burst| {
                        burst.jumps_at_end < budget && burst.jumps_at_start < budget
                    };
                    if let Some(burst) = found.filter(unreached) {
                        let ends = [burst.first, burst.last];
                        assert!(listed.contains(&ends), "{ends:?} at {place} {gap} {samples:?}");
                    }
                }
            }
        }
    }
}

#[test]
fn a_listed_burst_is_found_at_each_of_its_changes() {
    for (samples, capture) in short_captures() {
        for gap in 0..=MOST_GAP {
            for ListedBurst { first, last, .. } in plain::bursts(&samples, 1, gap) {
                for place in (first..=last).filter(|&i| samples[i] != samples[i - 1]) {
                    let found = capture.burst_at(1, place, gap, 0, usize::MAX).found.unwrap();
                    assert_eq!((found.first, found.last), (first, last), "{gap} {samples:?}");
                }
            }
        }
    }
}

#[test]
fn a_larger_budget_gives_no_smaller_burst() {
    for (samples, capture) in short_captures() {
        for gap in 2..=MOST_GAP {
            for place in 0..=LEN {
                let at = |budget| capture.burst_at(1, place, gap, 1, budget).found;
                for budgets in [0, 1, 2, 3, usize::MAX].windows(2) {
                    let (smaller, larger) = (at(budgets[0]), at(budgets[1]));
                    assert_eq!(smaller.is_some(), larger.is_some());
                    if let Some((smaller, larger)) = smaller.zip(larger) {
                        let (first, last) = (larger.first, larger.last);
                        let holds = first <= smaller.first && smaller.last <= last;
                        assert!(holds, "{budgets:?} at {place}, {gap} {samples:?}");
                    }
                }
            }
        }
    }
}

/// A list that has come to its end stays there, and may be taken up from any burst of it.
#[test]
fn a_list_goes_on_and_ends() {
    let mut capture = Capture::start(8, 100).unwrap();
    // Changes at 1, 2, 5, 6 and 9.
    capture.append(&[0, 1, 0, 0, 0, 1, 0, 0, 0, 1, 1]).unwrap();
    let mut bursts = capture.bursts(1, 2);
    assert_eq!(bursts.next(), Some(ListedBurst { first: 1, last: 2, changes: 2 }));
    let mut again = bursts.clone();
    for bursts in [&mut bursts, &mut again] {
        assert_eq!(bursts.next(), Some(ListedBurst { first: 5, last: 6, changes: 2 }));
        assert_eq!((bursts.next(), bursts.next()), (None, None));
    }
    assert_eq!(Capture::start(8, 100).unwrap().bursts(1, 2).next(), None);
}
