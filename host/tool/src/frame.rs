//! A scanner frame, made up for the demonstration: four heads, two encoders and a log turner on sixteen lines.

use capture::Lines;

/// Samples a second.
pub const RATE: u64 = 10_000;

/// Two hundred seconds.
pub const SAMPLES: usize = 2_000_000;

/// The turner's drive, and the place at which it starts.
pub const DRIVE: u8 = 14;
pub const DRIVE_STARTS: usize = 700_000;

/// The lines of the turner's encoder that turn with it, A and B.
pub const TURNER_ENCODER: [u8; 2] = [11, 12];

/// The lines' names.
pub const NAMES: [&str; 16] = [
    "head 1 laser",
    "head 2 laser",
    "head 3 laser",
    "head 4 laser",
    "head 1 ready",
    "head 2 ready",
    "head 3 ready",
    "head 4 ready",
    "chain A",
    "chain B",
    "chain index",
    "turner A",
    "turner B",
    "turner index",
    "turner drive",
    "turner home",
];

/// Each head's laser flashes for 400 of 4000 samples, a quarter after the head before it.
const FLASH: usize = 400;
const ROUND: usize = 4_000;

/// Steps in a turn of the turner's encoder, and of the chain's.
pub const TURN: usize = 400;
const CHAIN_TURN: usize = 4_000;

/// Samples of the turner's motion: it gains speed, keeps it, loses it. After a rest it turns back in the same way.
const RAMP: usize = 90_000;
const STEADY: usize = 150_000;
const REST: usize = 50_000;

/// Samples of the motion one way, and of all of it.
const WAY: usize = 2 * RAMP + STEADY;
const TRIAL: usize = WAY + REST + WAY;

/// Samples a step at its full speed.
const STEP: usize = 15;

/// The sample at a place.
pub fn sample(place: usize) -> Lines {
    let bit = |line: u8, high: bool| Lines::from(high) << line;
    let mut lines = 0;
    for head in 0..4 {
        let phase = (place + ROUND - head as usize * ROUND / 4) % ROUND;
        lines |= bit(head, phase < FLASH);
        // ready between the end of the flash and the next round
        lines |= bit(4 + head, (2 * FLASH..ROUND - FLASH).contains(&phase));
    }
    lines |= encoder(place / 1_000, CHAIN_TURN) << 8;
    let turned = position(place.saturating_sub(DRIVE_STARTS));
    lines |= encoder(turned, TURN) << 11;
    let driven = (DRIVE_STARTS..DRIVE_STARTS + TRIAL).contains(&place);
    lines | bit(DRIVE, driven) | bit(15, turned % TURN < 2)
}

/// Lines A, B and index of an encoder after so many steps.
fn encoder(steps: usize, turn: usize) -> Lines {
    let ab = [0b00, 0b01, 0b11, 0b10][steps % 4];
    ab | Lines::from(steps % turn < 4) << 2
}

/// Where the turner is so many samples after its start, in steps: it turns forward, rests and turns back.
fn position(time: usize) -> usize {
    steps(time) - steps(time.saturating_sub(WAY + REST))
}

/// The steps that it makes one way, so many samples after its start.
fn steps(time: usize) -> usize {
    let ramp = |time: usize| time * time / (2 * RAMP * STEP);
    let (gained, kept) = (ramp(RAMP), STEADY / STEP);
    if time < RAMP {
        ramp(time)
    } else if time < RAMP + STEADY {
        gained + (time - RAMP) / STEP
    } else {
        gained + kept + gained - ramp(WAY.saturating_sub(time))
    }
}

#[cfg(test)]
mod tests {
    use super::*;

    #[test]
    fn the_turner_makes_forty_turns_and_as_many_back_step_by_step() {
        assert_eq!(position(0), 0);
        assert_eq!([WAY, WAY + REST].map(position), [40 * TURN; 2]);
        assert_eq!([TRIAL, SAMPLES].map(position), [0; 2]);
        for time in 0..SAMPLES {
            let (now, next) = (position(time), position(time + 1));
            assert!(now.abs_diff(next) <= 1);
            let back = time >= WAY;
            assert!(if back { next <= now } else { now <= next }, "{time}");
        }
    }

    #[test]
    fn the_drive_starts_once() {
        let high = |place| sample(place) >> DRIVE & 1 == 1;
        let starts: Vec<usize> =
            (1..SAMPLES).filter(|&place| high(place) && !high(place - 1)).collect();
        assert_eq!(starts, [DRIVE_STARTS]);
    }
}
