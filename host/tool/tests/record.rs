//! `record`, end to end: what is saved is what the rule of selection takes.

mod common;
#[path = "../../capture/tests/plain/mod.rs"]
mod plain;

use capture::{Condition, Term};
use common::{Folder, Run};
use plain::file::file;
use plain::Rng;
use std::io::{BufRead, BufReader, Write};
use std::process::{Command, Stdio};
use std::sync::atomic::{AtomicU8, Ordering};
use std::thread;
use std::time::Duration;

#[test]
fn a_trigger_with_a_part_before_it() {
    let folder = Folder::new("record-trigger");
    folder.write("in", &[0, 0, 4, 4, 12, 8, 0, 8, 9, 9, 9]);
    let out =
        folder.run("record --unit 1 --trigger 3=rising --limit 6 --pre 0.5 -o a.shelf in").yes();
    assert_eq!(out, "unit 1\nsamples 6\nmark 3\nrate -\nseconds -\nchanging 2,3\n");
    assert_eq!(folder.read("a.shelf"), file(1, Some(3), &[0, 4, 4, 12, 8, 0]));

    // two terms at once, and from standard input
    let run = folder.run_on(
        "record --unit 1 --rate 2k --trigger 3=rising --trigger 2=low --limit 3 -o b.shelf",
        &folder.read("in"),
    );
    assert!(run.yes().contains("\nrate 2000\nseconds 0.0015\n"));
    assert_eq!(folder.read("b.shelf"), file(1, Some(0), &[8, 9, 9]));
    let run = folder
        .run_on("record --unit 1 --trigger 3=r,2=0 --limit 3 -o c.shelf -", &folder.read("in"));
    run.yes();
    assert_eq!(folder.read("c.shelf"), folder.read("b.shelf"));
}

#[test]
fn rising_and_falling_on_one_line() {
    let folder = Folder::new("record-either");
    for (samples, mark) in [([0, 0, 8, 0], 2), ([8, 0, 8, 8], 1)] {
        let run = folder.run_on(
            "record --unit 1 --trigger 3=rising,3=falling --limit 4 --pre 0.5 -o a.shelf",
            &samples.map(|sample| sample as u8),
        );
        run.yes();
        assert_eq!(folder.read("a.shelf"), file(1, Some(mark), &samples));
    }
}

#[test]
fn seconds_before_the_trigger() {
    let folder = Folder::new("record-seconds");
    folder.write("in", &[1, 2, 3, 4, 5, 6, 128, 7]);
    for pre in ["3ms", "0.003s", "3000us"] {
        folder
            .run(&format!("record --unit 1 --rate 1k --trigger 7=high --pre {pre} -o a.shelf in"))
            .yes();
        assert_eq!(folder.read("a.shelf"), file(1, Some(3), &[4, 5, 6, 128, 7]));
    }
    let run = folder.run("record --unit 1 --rate 1k --trigger 7=high --pre 2s -o a.shelf in");
    assert_eq!((run.status, run.err.as_str()), (0, "logic-capture record: --pre counts as 1s\n"));
    assert_eq!(folder.read("a.shelf"), file(1, Some(6), &[1, 2, 3, 4, 5, 6, 128, 7]));
}

#[test]
fn random_recordings() {
    let folder = Folder::new("record-random");
    let mut rng = Rng(6);
    let conditions = [
        ("rising", Condition::Rising),
        ("falling", Condition::Falling),
        ("edge", Condition::Edge),
        ("high", Condition::High),
        ("low", Condition::Low),
    ];
    for round in 0..60 {
        let unit = 1 + round % 2;
        let (len, calm) = (1 + rng.below(2000), rng.pick(&[1, 4, 100]));
        let samples = rng.samples(len, unit, calm);
        let (word, condition) = rng.pick(&conditions);
        let line = rng.below(8 * unit);
        let limit = 1 + rng.below(500);
        let terms = [Term { line: line as u8, condition }];
        let (run, mark) = plain::selected(&samples, &terms, limit / 2, limit);

        let words = format!(
            "record --unit {unit} --trigger {line}={word} --limit {limit} --pre 0.5 -o a.shelf"
        );
        let done = folder.run_on(&words, &plain::bytes(&samples, unit));
        match mark {
            Some(mark) => {
                assert_eq!(done.status, 0, "{}", done.err);
                let short = limit - run.len();
                let note = format!(
                    "logic-capture record: the input ends {short} samples before the limit\n"
                );
                assert_eq!(done.err, if short > 0 { note } else { String::new() });
                assert_eq!(folder.read("a.shelf"), file(unit, Some(mark), &run));
            }
            None => {
                let note =
                    format!("{len} samples read, and the trigger did not fire: nothing is saved\n");
                assert_eq!((done.status, done.out.as_str()), (1, ""));
                assert_eq!(done.err, format!("logic-capture record: {note}"));
            }
        }
    }
}

#[test]
fn a_long_input_of_unit_2_without_a_limit() {
    let folder = Folder::new("record-long");
    let samples = Rng(7).samples(1_500_000, 2, 5000);
    folder.write("in", &plain::bytes(&samples, 2));
    folder.run("record --unit 2 -o a.shelf in").yes();
    assert_eq!(folder.read("a.shelf"), file(2, None, &samples));
    assert_eq!(folder.run("check a.shelf").yes(), "whole\n");
}

#[test]
fn half_a_sample_at_the_end_is_dropped() {
    let folder = Folder::new("record-leftover");
    let run = folder.run_on("record --unit 2 -o a.shelf", &[1, 0, 2, 0, 3]);
    let note =
        "logic-capture record: standard input: the last byte is half a sample, and is dropped\n";
    assert_eq!((run.status, run.err.as_str()), (0, note));
    assert_eq!(folder.read("a.shelf"), file(2, None, &[1, 2]));
}

#[test]
fn half_a_sample_is_kept_until_its_rest_comes() {
    let folder = Folder::new("record-pieces");
    let mut tool = folder
        .command(&["record", "--unit", "2", "-o", "a.shelf"])
        .stdin(Stdio::piped())
        .spawn()
        .unwrap();
    let mut input = tool.stdin.take().unwrap();
    for piece in [&[1, 2, 3][..], &[4], &[5, 6, 7, 8, 9], &[10]] {
        input.write_all(piece).unwrap();
        thread::sleep(Duration::from_millis(50));
    }
    drop(input);
    assert!(tool.wait().unwrap().success());
    assert_eq!(folder.read("a.shelf"), file(2, None, &[0x201, 0x403, 0x605, 0x807, 0xa09]));
}

#[test]
fn nothing_recorded_is_nothing_saved() {
    let folder = Folder::new("record-nothing");
    folder.write("empty", b"");
    folder.write("calm", &[0; 100]);
    folder.write("old.shelf", b"old");
    for (line, what) in [
        ("record --unit 1 -o a.shelf empty", "empty: no samples: nothing is saved"),
        ("record --unit 2 -o a.shelf", "standard input: no samples: nothing is saved"),
        (
            "record --unit 1 --trigger 0=edge -o a.shelf empty",
            "0 samples read, and the trigger did not fire: nothing is saved",
        ),
        (
            "record --unit 1 --trigger 0=edge -o a.shelf calm",
            "100 samples read, and the trigger did not fire: nothing is saved",
        ),
        (
            "record --unit 2 --trigger 0=edge -o old.shelf calm",
            "50 samples read, and the trigger did not fire: nothing is saved",
        ),
    ] {
        let err = format!("logic-capture record: {what}\n");
        assert_eq!(folder.run(line), Run { status: 1, out: String::new(), err });
        assert_eq!(folder.names(), ["calm", "empty", "old.shelf"]);
    }
    assert_eq!(folder.read("old.shelf"), b"old");
}

#[test]
fn a_full_capture_is_saved_and_said() {
    let folder = Folder::new("record-full");
    let run = folder.run_on("record --unit 1 --capacity 3 -o a.shelf", &[1, 2, 3, 4]);
    let note = "logic-capture record: the capacity is full after 3 samples; the rest is left out\n";
    assert_eq!((run.status, run.err.as_str()), (1, note));
    assert_eq!(folder.read("a.shelf"), file(1, None, &[1, 2, 3]));
    folder.run_on("record --unit 1 --capacity 4 -o a.shelf", &[1, 2, 3, 4]).yes();
    assert_eq!(folder.read("a.shelf"), file(1, None, &[1, 2, 3, 4]));
}

#[test]
fn an_old_file_is_written_anew() {
    let folder = Folder::new("record-anew");
    folder.write("a.shelf", &[b'x'; 1000]);
    folder.run_on("record --unit 1 -o a.shelf", &[1, 2, 3]).yes();
    assert_eq!(folder.read("a.shelf"), file(1, None, &[1, 2, 3]));
}

#[test]
fn through_a_pipe() {
    let folder = Folder::new("record-pipe");
    let saved = folder.run_on("record --unit 1 --trigger 1=high -o -", &[0, 1, 2, 1, 3]).yes();
    assert_eq!(saved.as_bytes(), file(1, Some(0), &[2, 1, 3]));
    assert_eq!(folder.run_on("next --lines 0 -", saved.as_bytes()).yes(), "1\n");
}

#[test]
fn wrong_settings_and_inputs_are_refused() {
    let folder = Folder::new("record-refused");
    folder.write("in", &[0; 10]);
    for (line, what) in [
        ("in -o b.shelf", "--unit 1 or --unit 2 is missing; see --help"),
        ("in --unit 1", "-o FILE is missing; see --help"),
        ("in --unit 3 -o b.shelf", "--unit 3: a unit is 1 or 2 bytes a sample"),
        ("in --unit 1 -o b.shelf --trigger 8=high", "--trigger 8=high: '8' is no line: lines are 0 to 7"),
        (
            "in --unit 1 -o b.shelf --trigger 3=up",
            "--trigger 3=up: 'up' is no condition: rising, falling, edge, high or low",
        ),
        ("in --unit 1 -o b.shelf --limit many", "--limit many: not a whole number"),
        (
            "in --unit 1 -o b.shelf --limit 67108865",
            "the settings are refused, 1: a capacity is 1 to 67108864 samples",
        ),
        (
            "in --unit 1 -o b.shelf --capacity 0",
            "the settings are refused, 1: a capacity is 1 to 67108864 samples",
        ),
        (
            "in --unit 1 -o b.shelf --capacity 9 --limit 10",
            "the settings are refused, 4: the limit is above the capacity",
        ),
        ("in --unit 1 -o b.shelf --pre 0.5", "--pre goes with --trigger"),
        ("in --unit 1 -o b.shelf --trigger 0=high --pre 1ms", "--pre in seconds needs --rate"),
        (
            "in --unit 1 -o b.shelf --trigger 0=high --pre 0.5",
            "the settings are refused, 5: a fraction before the trigger needs a limit, and seconds need that there is none",
        ),
        (
            "in --unit 1 -o b.shelf --trigger 0=high --limit 5 --pre nan",
            "the settings are refused, 6: the pre-trigger is not a number, or its rate is above 1000000000",
        ),
        (
            "in --unit 1 -o b.shelf --trigger 0=high --rate 2G --pre 1ms",
            "the settings are refused, 6: the pre-trigger is not a number, or its rate is above 1000000000",
        ),
        (
            "in --unit 1 -o b.shelf --trigger 0=high --capacity 10 --rate 10 --pre 1s",
            "the settings are refused, 7: the samples before the trigger leave no room for it in the capacity",
        ),
        ("missing --unit 1 -o b.shelf", "missing: No such file or directory (os error 2)"),
        ("in --unit 1 -o no/b.shelf", "no/b.shelf: No such file or directory (os error 2)"),
        ("in --unit 1 -o new/", "new/: No such file or directory (os error 2)"),
        ("in --unit 1 -o .", ".: Is a directory (os error 21)"),
        ("in in --unit 1 -o b.shelf", "'in' is one file too many beside 'in'"),
    ] {
        let run = folder.run(&format!("record {line}"));
        assert_eq!(run.bad(), format!("logic-capture record: {what}"), "{line}");
        assert_eq!(folder.names(), ["in"], "{line}");
    }
}

#[test]
fn a_long_wait_says_how_far_it_is() {
    let folder = Folder::new("record-progress");
    let words = ["record", "--unit", "1", "--trigger", "0=rising", "-o", "a.shelf"];
    let mut tool = folder.command(&words).stdin(Stdio::piped()).spawn().unwrap();
    let mut input = tool.stdin.take().unwrap();
    let mut said = BufReader::new(tool.stderr.take().unwrap()).lines().map(Result::unwrap);

    // Line 0 is low until the tool has said something, and then high until it has said something else.
    let level = AtomicU8::new(0);
    const END: u8 = 2;
    let (waiting, recorded) = thread::scope(|scope| {
        scope.spawn(|| loop {
            match level.load(Ordering::Relaxed) {
                END => break drop(input),
                level => input.write_all(&[level; 3]).unwrap(),
            }
            thread::sleep(Duration::from_millis(20));
        });
        let waiting = said.next();
        level.store(1, Ordering::Relaxed);
        let recorded =
            said.by_ref().take(5).find(|line| !line.ends_with("waiting for the trigger"));
        level.store(END, Ordering::Relaxed);
        (waiting.unwrap(), recorded.unwrap())
    });
    assert!(tool.wait().unwrap().success());
    assert!(waiting.ends_with(" samples read, waiting for the trigger"), "{waiting}");
    assert!(
        recorded.starts_with("logic-capture record: ") && recorded.ends_with(" recorded"),
        "{recorded}"
    );
}

#[test]
fn what_was_recorded_before_ctrl_c_is_saved() {
    let folder = Folder::new("record-interrupt");
    let words = ["record", "--unit", "1", "--limit", "100", "-o", "a.shelf"];
    let mut tool = folder.command(&words).stdin(Stdio::piped()).spawn().unwrap();
    let mut input = tool.stdin.take().unwrap();
    let mut said = BufReader::new(tool.stderr.take().unwrap()).lines().map(Result::unwrap);

    input.write_all(&[1, 2, 3]).unwrap();
    // Its output is begun once it has begun, and its first second is then about to run.
    while folder.names().is_empty() {
        thread::sleep(Duration::from_millis(10));
    }
    thread::sleep(Duration::from_millis(1500));
    input.write_all(&[4]).unwrap();
    let progress = said.next().unwrap();
    assert_eq!(progress, "logic-capture record: 4 samples read, 4 recorded");
    // The input stays open: the tool waits for more of it.
    let sent = Command::new("kill").args(["-INT", &tool.id().to_string()]).status().unwrap();
    assert!(sent.success());
    assert!(tool.wait().unwrap().success());
    assert_eq!(said.next().unwrap(), "logic-capture record: stopped after 4 samples");
    assert_eq!(
        said.next().unwrap(),
        "logic-capture record: the input ends 96 samples before the limit"
    );
    assert_eq!(folder.read("a.shelf"), file(1, None, &[1, 2, 3, 4]));
}
