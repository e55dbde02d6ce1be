//! How many nodes searches read, counted by hand.

mod plain;

use capture::{Burst, Capture, Counted, Lines, CHUNK};
use plain::walk::Walk;

fn captured(samples: &[Lines]) -> Capture {
    let mut capture = Capture::start(8, samples.len().max(1)).unwrap();
    capture.append(&plain::bytes(samples, 1)).unwrap();
    capture
}

/// Line 0 changes at these places.
fn changing(len: usize, places: &[usize]) -> Vec<Lines> {
    let mut samples = vec![0; len];
    for &place in places {
        samples[place..].iter_mut().for_each(|sample| *sample ^= 1);
    }
    samples
}

fn counted<T>(found: Option<T>, read: usize) -> Counted<T> {
    Counted { found, read }
}

/// Document 01's capture A. It is shorter than a node, so each step is a sample.
const A: [Lines; 8] = [0, 0, 1, 1, 0, 2, 2, 3];
const B: [Lines; 10] = [0, 1, 0, 0, 0, 0, 0, 0, 1, 0];

#[test]
fn searches_of_a_short_capture() {
    let a = captured(&A);
    assert_eq!(a.next_change(1, 0), counted(Some(2), 2));
    assert_eq!(a.next_change(1, 4), counted(Some(7), 3));
    assert_eq!(a.next_change(2, 5), counted(None, 2));
    assert_eq!(a.next_change(1, 6), counted(Some(7), 1));
    assert_eq!(a.next_change(1, 7), counted(None, 0));
    assert_eq!(a.next_change(1, usize::MAX), counted(None, 0));
    assert_eq!(a.prev_change(1, 6), counted(Some(4), 3));
    assert_eq!(a.prev_change(1, 100), counted(Some(7), 1));
    assert_eq!(a.prev_change(1, 1), counted(None, 1));
    assert_eq!(a.prev_change(1, 0), counted(None, 0));
    assert_eq!(captured(&[]).next_change(1, 0), counted(None, 0));
    assert_eq!(captured(&[]).prev_change(1, 0), counted(None, 0));
}

#[test]
fn bursts_of_short_captures() {
    let a = captured(&A);
    let burst =
        |first, last, jumps_at_end| Some(Burst { first, last, jumps_at_end, jumps_at_start: 0 });
    // Back from 3 to 2 and on to 4; the jump from 4 to 7; the try from 2, which finds 2 again.
    assert_eq!(a.burst_at(1, 3, 4, 0, 1), counted(burst(2, 7, 1), (2 + 1) + 1 + 2));
    // With two jumps allowed the second try at the end finds 7 again.
    assert_eq!(a.burst_at(1, 3, 4, 0, 2), counted(burst(2, 7, 1), (2 + 1) + 2 + 2));
    assert_eq!(a.burst_at(1, 3, 3, 0, 1), counted(burst(2, 4, 0), (2 + 1) + 3 + 2));
    // Without a budget the pair stays as it is.
    assert_eq!(a.burst_at(1, 3, 4, 0, 0), counted(burst(2, 4, 0), 2 + 1));
    // No near pair, and no side within the tolerance.
    assert_eq!(a.burst_at(1, 3, 2, 0, 1), counted(None, 2 + 1));
    // Both sides are searched, and neither has its second change near.
    assert_eq!(a.burst_at(1, 3, 2, 1, 1), counted(None, (2 + 1) + 1 + 3));
    assert_eq!(a.burst_at(1, 3, 1, 9, 9), counted(None, 0));
    assert_eq!(captured(&[]).burst_at(1, 3, 4, 9, 9), counted(None, 0));

    // Changes at 1, 2, 8 and 9: the second change of each side, then a failed try at each end.
    let b = captured(&B);
    assert_eq!(b.burst_at(1, 5, 4, 3, 9), counted(burst(1, 2, 0), (4 + 3) + 1 + 1 + 4 + 1));
}

#[test]
fn a_search_climbs_the_levels_and_comes_down_again() {
    let last = changing(CHUNK, &[CHUNK - 1]);
    // 31 steps on each of the levels 0 to 3; the last node of level 3 has the change, and 32 steps follow on each lower
    // level.
    assert_eq!(captured(&last).next_change(1, 0), counted(Some(CHUNK - 1), 4 * 31 + 3 * 32));
    let first = captured(&changing(CHUNK, &[1]));
    assert_eq!(first.prev_change(1, usize::MAX), counted(Some(1), 4 * 31 + 3 * 32));
    // One level is tried after the other, down to the sample.
    assert_eq!(captured(&changing(2048, &[1024])).next_change(1, 1023), counted(Some(1024), 3));
    assert_eq!(captured(&changing(2048, &[1024])).prev_change(1, 1024), counted(Some(1024), 3));
    // A node that is not full is not taken.
    assert_eq!(captured(&[0; 63]).next_change(1, 31), counted(None, 31));
    assert_eq!(captured(&[0; 64]).next_change(1, 31), counted(None, 1));
    assert_eq!(captured(&[0; 33]).prev_change(1, 32), counted(None, 1));
}

#[test]
fn each_chunk_begins_at_the_top() {
    let len = 2 * CHUNK + 5;
    let quiet = captured(&vec![0; len]);
    assert_eq!(quiet.next_change(1, CHUNK - 1), counted(None, 1 + 5));
    assert_eq!(quiet.prev_change(1, len), counted(None, 4 + 1 + 1));
    assert_eq!(quiet.prev_change(1, CHUNK), counted(None, 1));
    let border = captured(&changing(len, &[CHUNK]));
    assert_eq!(border.next_change(1, CHUNK - 1), counted(Some(CHUNK), 5));
    assert_eq!(border.prev_change(1, CHUNK), counted(Some(CHUNK), 5));
    assert_eq!(border.prev_change(1, len), counted(Some(CHUNK), 4 + 1 + 5));
}

#[test]
fn a_search_reads_at_most_384_nodes_a_chunk() {
    for at in [1, 1057, 524_287, CHUNK - 2] {
        for len in [at + 1, CHUNK - 1, CHUNK] {
            let samples = changing(len, &[at]);
            let (capture, walk) = (captured(&samples), Walk::over(&samples));
            for from in [0, 1, at - 1, at, len / 2, len - 1] {
                let [next, prev] = [capture.next_change(1, from), capture.prev_change(1, from)];
                assert_eq!([next, prev], [walk.next_change(1, from), walk.prev_change(1, from)]);
                assert!(next.read <= 384 && prev.read <= 384, "{at} {len} {from}");
            }
        }
    }
}
