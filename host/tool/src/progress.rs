//! When to say how far a long input is.

use std::time::{Duration, Instant};

const EVERY: Duration = Duration::from_secs(1);

pub struct Progress {
    last: Instant,
}

impl Progress {
    pub fn new(now: Instant) -> Progress {
        Progress { last: now }
    }

    /// Whether a second has gone since the start or the last time.
    pub fn is_due(&mut self, now: Instant) -> bool {
        let due = now.duration_since(self.last) >= EVERY;
        if due {
            self.last = now;
        }
        due
    }
}

#[cfg(test)]
mod tests {
    use super::*;

    #[test]
    fn once_a_second() {
        let start = Instant::now();
        let mut progress = Progress::new(start);
        let after = |millis| start + Duration::from_millis(millis);
        let due: Vec<u64> =
            (0..40).map(|i| i * 100).filter(|&millis| progress.is_due(after(millis))).collect();
        assert_eq!(due, [1000, 2000, 3000]);
    }
}
