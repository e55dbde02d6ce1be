//! A recorder takes what the rule of selection says, however its samples are cut into pushes.

mod plain;

use capture::{Condition, Lines, Pushed, Recorder, Refusal, Settings, Term, Wish, MOST_SAMPLES};
use plain::Rng;

const CONDITIONS: [Condition; 5] =
    [Condition::Rising, Condition::Falling, Condition::Edge, Condition::High, Condition::Low];

#[test]
fn random_recordings_take_what_the_rule_says() {
    let mut rng = Rng(5);
    for round in 0..2000 {
        let unit = 1 + round % 2;
        let (len, calm) = (rng.below(300), rng.pick(&[1, 4, 30]));
        let all = rng.samples(len, unit, calm);
        let terms: Vec<Term> = (0..rng.below(3))
            .map(|_| Term { line: rng.below(8 * unit) as u8, condition: rng.pick(&CONDITIONS) })
            .collect();
        let mut settings = Settings::new(8 * unit, 1000).terms(&terms);
        settings = if rng.below(2) == 0 {
            settings
                .limit(1 + rng.below(200))
                .pretrigger(Wish::Fraction(rng.below(120) as f64 / 100.0))
        } else {
            settings.rate(100).pretrigger(Wish::Seconds(rng.below(120) as f64 / 100.0))
        };
        record(&mut rng, &settings, &terms, &all, unit);
    }
}

/// Pushes all samples in pieces, half a sample at the end of some, and compares after each.
fn record(rng: &mut Rng, settings: &Settings, terms: &[Term], all: &[Lines], unit: usize) {
    let mut recorder = Recorder::start(settings).unwrap();
    let (pre, limit) = (recorder.pretrigger(), recorder.limit());
    let mut done = 0;
    while done < all.len() {
        let piece = (all.len() - done).min(rng.below(60));
        let mut bytes = plain::bytes(&all[done..done + piece], unit);
        if unit == 2 && rng.below(3) == 0 {
            bytes.push(0xff);
        }
        done += piece;
        let pushed = recorder.push(&bytes).unwrap();

        let (run, mark) = plain::selected(&all[..done], terms, pre, limit);
        let capture = recorder.capture();
        assert_eq!(
            (capture.samples(0, usize::MAX), capture.mark()),
            (run.clone(), mark),
            "{settings:?}"
        );
        assert_eq!(recorder.is_armed(), !terms.is_empty() && mark.is_none());
        let complete = limit > 0 && run.len() == limit;
        assert_eq!(pushed, if complete { Pushed::Complete } else { Pushed::GoingOn });
    }
    let capture = recorder.into_capture();
    assert_eq!(capture.whole(), Ok(()));
    let changes = (1..capture.len()).filter(|&i| capture.get(i) != capture.get(i - 1));
    assert!(capture.changes(0xffff, 0).eq(changes));
}

#[test]
fn rising_and_falling_on_one_line_fire_at_either() {
    let [rising, falling] = [Condition::Rising, Condition::Falling];
    let mark = |terms: &[(u8, Condition)], samples: &[u8]| {
        let settings = Settings::new(8, 9).rate(8).pretrigger(Wish::Seconds(1.0));
        let settings = terms.iter().fold(settings, |s, &(line, condition)| s.term(line, condition));
        let mut recorder = Recorder::start(&settings).unwrap();
        recorder.push(samples).unwrap();
        recorder.into_capture().mark()
    };
    for both in [[(3, rising), (3, falling)], [(3, falling), (3, rising)]] {
        assert_eq!(mark(&both, &[0, 0, 8]), Some(2));
        assert_eq!(mark(&both, &[8, 8, 0]), Some(2));
        assert_eq!(mark(&both, &[8]), None);
        // Other terms stay, on that line and on others.
        let high = [&both[..], &[(3, Condition::High)]].concat();
        assert_eq!(mark(&high, &[8, 0, 8]), Some(2));
        let edge = [&both[..], &[(0, Condition::Edge)]].concat();
        assert_eq!(mark(&edge, &[8, 0, 1, 8]), Some(3));
        let rise = [&both[..], &[(0, rising)]].concat();
        assert_eq!(mark(&rise, &[1, 8, 0, 9, 1, 8, 1]), Some(3));
    }
    // On two lines each alone: a line that rises, another that falls.
    assert_eq!(mark(&[(3, rising), (0, falling)], &[0, 8, 1, 8]), Some(3));
}

#[test]
fn a_refused_push_adds_nothing() {
    let settings =
        Settings::new(8, 3).term(0, Condition::Rising).rate(2).pretrigger(Wish::Seconds(1.0));
    let mut recorder = Recorder::start(&settings).unwrap();
    assert_eq!(recorder.push(&[0, 0, 0]), Ok(Pushed::GoingOn));
    assert_eq!(recorder.push(&[1, 0, 0]), Err(Refusal::Full));
    assert!(recorder.is_armed() && recorder.capture().is_empty());
    assert_eq!(recorder.push(&[1]), Ok(Pushed::GoingOn));
    assert_eq!(recorder.capture().samples(0, 9), [0, 0, 1]);
    assert_eq!(recorder.capture().mark(), Some(2));
    assert_eq!(recorder.push(&[0]), Err(Refusal::Full));
    assert_eq!(recorder.into_capture().samples(0, 9), [0, 0, 1]);
}

#[test]
fn pushes_after_the_limit_store_nothing() {
    let mut recorder = Recorder::start(&Settings::new(8, 10).limit(2)).unwrap();
    assert_eq!(recorder.push(&[1]), Ok(Pushed::GoingOn));
    assert_eq!(recorder.push(&[2, 3]), Ok(Pushed::Complete));
    assert_eq!(recorder.push(&[4; 100]), Ok(Pushed::Complete));
    assert_eq!(recorder.capture().samples(0, 9), [1, 2]);
}

#[test]
fn what_is_kept_before_the_trigger_is_rounded_as_the_rule_says() {
    let fraction = |limit, p| {
        let settings = Settings::new(8, 1000).limit(limit).pretrigger(Wish::Fraction(p));
        Recorder::start(&settings).unwrap().pretrigger()
    };
    assert_eq!(fraction(100, 0.29), 28);
    assert_eq!(fraction(100, 0.58), 57);
    assert_eq!(fraction(100, f64::INFINITY), 99);
    assert_eq!(fraction(100, -1.0), 0);
    let seconds = |rate, t| {
        let settings = Settings::new(8, 1000).rate(rate).pretrigger(Wish::Seconds(t));
        Recorder::start(&settings).unwrap().pretrigger()
    };
    assert_eq!(seconds(3, 0.5), 2);
    assert_eq!(seconds(1, 0.499_999_999_999_999_94), 0);
    assert_eq!(seconds(999, 7.0), 999);
}

#[test]
fn the_ring_is_cut_at_its_cap_and_says_so() {
    let settings =
        Settings::new(16, MOST_SAMPLES).rate(1_000_000_000).pretrigger(Wish::Seconds(1.0));
    let recorder = Recorder::start(&settings).unwrap();
    assert_eq!(recorder.pretrigger(), MOST_SAMPLES / 2);
    assert!(recorder.is_pretrigger_cut());
    let recorder = Recorder::start(&Settings::new(16, 10)).unwrap();
    assert!(!recorder.is_pretrigger_cut());
}

#[test]
fn wrong_settings_are_refused() {
    let refused = |settings: Settings| Recorder::start(&settings).unwrap_err();
    let settings = || Settings::new(8, 100);
    assert_eq!(refused(Settings::new(8, 0)), Refusal::Capacity);
    assert_eq!(refused(settings().term(16, Condition::High)), Refusal::Line);
    assert_eq!(refused(settings().limit(101)), Refusal::Limit);
    assert_eq!(refused(settings().pretrigger(Wish::Fraction(0.1))), Refusal::WishKind);
    assert_eq!(refused(settings().limit(9).pretrigger(Wish::Seconds(0.1))), Refusal::WishKind);
    assert_eq!(
        refused(settings().limit(9).pretrigger(Wish::Fraction(f64::NAN))),
        Refusal::WishNumber
    );
    assert_eq!(
        refused(settings().rate(1_000_000_001).pretrigger(Wish::Seconds(0.0))),
        Refusal::WishNumber
    );
    assert_eq!(refused(settings().rate(100).pretrigger(Wish::Seconds(1.0))), Refusal::Pretrigger);
}
