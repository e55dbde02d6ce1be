//! The Rust held against document 01's rules on random inputs, for a given time.

use crate::groups::GROUPS;
use crate::list::List;
use crate::shapes::Size;
use rng::Rng;
use std::time::{Duration, Instant};

/// Differences shown.
const SHOWN: usize = 5;

pub fn run(seconds: u64, seed: u64) -> bool {
    let begun = Instant::now();
    let mut list = List::new();
    let mut rng = Rng::new(seed);
    while begun.elapsed() < Duration::from_secs(seconds) {
        let size = match rng.below(1_000) {
            0 => Size::Big,
            1..=100 => Size::Border,
            _ => Size::Short,
        };
        let group = &GROUPS[rng.below(GROUPS.len() as u64) as usize];
        (group.random)(&mut list, &mut rng, size);
        list.text();
    }
    let asker = list.asker();
    for difference in asker.differences.iter().take(SHOWN) {
        println!("{difference}");
    }
    println!(
        "seed {seed}: {} answers compared, {} different; {} refused by 01, {} only by 01",
        asker.counts.by_rust,
        asker.differences.len(),
        asker.counts.refused,
        asker.counts.rust_has_none,
    );
    asker.differences.is_empty()
}
