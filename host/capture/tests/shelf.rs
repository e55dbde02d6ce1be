//! The worked examples of document 01, example 6 with the count of document 02's CR 5, asked through this crate; tests are
//! named by their numbers there.

use capture::{
    Burst, Capture, Condition, Node, Pixel, Pushed, Recorder, Refusal, Settings, View, Wish,
};

fn captured(samples: &[u8]) -> Capture {
    let mut capture = Capture::start(8, 100).unwrap();
    capture.append(samples).unwrap();
    capture
}

fn a() -> Capture {
    captured(&[0, 0, 1, 1, 0, 2, 2, 3])
}

#[test]
fn examples_1_to_5_searches() {
    assert_eq!(a().next_change(1, 0).found, Some(2));
    assert_eq!(a().next_change(1, 7).found, None);
    assert_eq!(a().next_change(1, usize::MAX).found, None);
    assert_eq!(a().prev_change(1, 6).found, Some(4));
    assert_eq!(a().prev_change(1, 100).found, Some(7));
}

#[test]
fn examples_6_and_7_summaries() {
    assert_eq!(a().summary(0, 8), Some(Node { first: 0, last: 3, toggles: 3, count: 4 }));
    assert_eq!(a().density(0, 8), 4);
    assert_eq!(a().summary(4, 4), None);
    assert_eq!(a().density(4, 4), 0);
}

#[test]
fn examples_8_to_10_bursts() {
    let burst =
        |first, last, jumps_at_end| Some(Burst { first, last, jumps_at_end, jumps_at_start: 0 });
    assert_eq!(a().burst_at(1, 3, 4, 0, 1).found, burst(2, 7, 1));
    assert_eq!(a().burst_at(1, 3, 3, 0, 1).found, burst(2, 4, 0));
    let b = captured(&[0, 1, 0, 0, 0, 0, 0, 0, 1, 0]);
    assert_eq!(b.burst_at(1, 5, 4, 3, 9).found, burst(1, 2, 0));
}

#[test]
fn examples_11_and_12_pixels() {
    let pixel = |first, toggles| Pixel { first, toggles };
    assert_eq!(a().render(View { start: 0.0, spp: 4.0 }, 2).unwrap(), [pixel(0, 1), pixel(0, 3)]);
    assert_eq!(a().render(View { start: 1.5, spp: 0.5 }, 1).unwrap(), [pixel(0, 1)]);
}

#[test]
fn examples_13_to_15_recordings() {
    let settings =
        Settings::new(8, 100).limit(4).term(0, Condition::Rising).pretrigger(Wish::Fraction(0.5));
    let mut recorder = Recorder::start(&settings).unwrap();
    assert_eq!(recorder.push(&[0, 0]), Ok(Pushed::GoingOn));
    assert_eq!(recorder.push(&[0, 1, 1]), Ok(Pushed::Complete));
    assert_eq!(recorder.capture().samples(0, 100), [0, 0, 1, 1]);
    assert_eq!(recorder.capture().mark(), Some(2));

    let first_sample = |condition| {
        let mut recorder = Recorder::start(&Settings::new(8, 100).term(0, condition)).unwrap();
        recorder.push(&[1]).unwrap();
        recorder.into_capture().mark()
    };
    assert_eq!(first_sample(Condition::Rising), None);
    assert_eq!(first_sample(Condition::High), Some(0));

    let settings = Settings::new(8, 100).rate(3).pretrigger(Wish::Seconds(0.5));
    assert_eq!(Recorder::start(&settings).unwrap().pretrigger(), 2);
}

#[test]
fn example_16_get() {
    assert_eq!(a().get(8), Err(Refusal::Place));
    assert_eq!(a().get(7), Ok(3));
}
