//! The questions, end to end, each held against a plain scan over the samples.

mod common;
#[path = "../../capture/tests/plain/mod.rs"]
mod plain;

use capture::{Burst, Lines, ListedBurst, View};
use common::{turned, Folder, Run};
use plain::file::file;
use plain::walk::Walk;
use plain::Rng;
use std::fmt::Write as _;

/// Some lines as an option, and their mask.
fn lines(rng: &mut Rng, unit: usize) -> (String, Lines) {
    let first = rng.below(8 * unit);
    let last = first + rng.below(8 * unit - first);
    match rng.below(3) {
        0 => (String::new(), if unit == 1 { 0xff } else { 0xffff }),
        1 => (format!("--lines {first}"), 1 << first),
        _ => (
            format!("--lines {first}-{last}"),
            (first..=last).fold(0, |mask, line| mask | 1 << line),
        ),
    }
}

/// The answers as lines of text.
fn text(answers: impl IntoIterator<Item = impl AsRef<[usize]>>) -> String {
    let mut text = String::new();
    for numbers in answers {
        let words: Vec<String> = numbers.as_ref().iter().map(usize::to_string).collect();
        writeln!(text, "{}", words.join(" ")).unwrap();
    }
    text
}

/// Asks the tool, which must give these answers, or none with status 1.
fn ask(folder: &Folder, line: &str, answers: &str) {
    let run = folder.run(line);
    if answers.is_empty() {
        run.none();
    } else {
        assert_eq!(run.yes(), answers, "{line}");
    }
}

/// The first place of each part of a stretch, and the changes in it: at its first place too, unless that is the stretch's.
fn parts_of(s: &[Lines], from: usize, to: usize, parts: usize) -> Vec<[usize; 2]> {
    let start = |part: usize| from + (to - from) * part / parts;
    let changes = |part: usize| {
        let places = (start(part)..start(part + 1)).filter(|&i| i > from);
        places.filter(|&i| s[i] != s[i - 1]).count()
    };
    (0..parts).map(|part| [start(part), changes(part)]).collect()
}

#[test]
fn answers_are_those_of_plain_scans() {
    let folder = Folder::new("questions-random");
    let mut rng = Rng(8);
    for round in 0..40 {
        let unit = 1 + round % 2;
        let (len, calm) = (rng.pick(&[0, 1, 2, 40, 300, 5000]), rng.pick(&[1, 5, 60]));
        let s = &rng.samples(len, unit, calm)[..];
        folder.write("a.bin", &plain::bytes(s, unit));
        let file = format!("--unit {unit} a.bin");
        let (lines, mask) = lines(&mut rng, unit);
        let (a, b) = (rng.below(len + 3), rng.below(len + 3));
        let number = usize::from;

        let walk = Walk::over(s);
        let next = walk.next_change(mask, a).map(|place| place.to_string());
        folder.search(&format!("next {lines} --from {a} {file}"), next);
        let prev = walk.prev_change(mask, a).map(|place| place.to_string());
        folder.search(&format!("prev {lines} --from {a} {file}"), prev);

        let changes = (a.max(1)..b.min(len)).filter(|&i| (s[i] ^ s[i - 1]) & mask != 0);
        let changes = changes.map(|i| [i, number(s[i] & mask), number((s[i] ^ s[i - 1]) & mask)]);
        let changes: Vec<_> = changes.collect();
        ask(&folder, &format!("changes {lines} --from {a} --to {b} {file}"), &text(&changes));
        let total = folder.run(&format!("changes {lines} --from {a} --to {b} --total {file}"));
        assert_eq!(total.out, text([[changes.len()]]));
        assert_eq!(total.status, i32::from(changes.is_empty()));

        let density = plain::density(s, a, b);
        let run = folder.run(&format!("density --from {a} --to {b} {file}"));
        let status = i32::from(density == 0);
        assert_eq!((run.status, run.out, run.err), (status, format!("{density}\n"), String::new()));
        let samples = b.min(len).saturating_sub(a);
        if samples > 0 {
            let parts = 1 + rng.below(samples.min(30));
            let line = format!("density --from {a} --to {b} --parts {parts} --ascii {file}");
            let (run, numbers) = (folder.run(&line), parts_of(s, a, a + samples, parts));
            assert_eq!((run.status, run.err.as_str()), (status, ""), "{line}");
            let printed = run.out.lines().map(|line| {
                let words: Vec<&str> = line.split_whitespace().collect();
                [words[0], words[1]].map(|word| word.parse::<usize>().unwrap())
            });
            assert!(printed.eq(numbers.iter().copied()), "{line}\n{}", run.out);
            assert_eq!(numbers.iter().map(|part| part[1]).sum::<usize>(), density as usize);
        }

        let (gap, tolerance, budget) = (rng.below(50), rng.below(50), rng.below(5));
        let burst = walk.burst_at(mask, a, gap, tolerance, budget).map(|burst| {
            let Burst { first, last, jumps_at_end, jumps_at_start } = burst;
            format!("{first} {last} {jumps_at_end} {jumps_at_start}")
        });
        let asked = format!("--at {a} --gap {gap} --tolerance {tolerance} --budget {budget}");
        folder.search(&format!("burst {lines} {asked} {file}"), burst);

        let bursts = plain::bursts(s, mask, gap);
        let (count, sum) = (bursts.len(), bursts.iter().map(|burst| burst.changes).sum());
        let bursts =
            bursts.into_iter().map(|ListedBurst { first, last, changes }| [first, last, changes]);
        ask(&folder, &format!("bursts {lines} --gap {gap} {file}"), &text(bursts));
        let total = folder.run(&format!("bursts {lines} --gap {gap} --total {file}"));
        let status = i32::from(count == 0);
        assert_eq!(total, Run { status, out: text([[count, sum]]), err: String::new() });

        let (line_a, line_b) = (rng.below(4), 4 + rng.below(8 * unit - 4));
        let still = walk.next_change(1 << line_a | 1 << line_b, 0).found.is_none();
        let run = folder.run(&format!("encoder --a {line_a} --b {line_b} {file}"));
        let out = turned(plain::encoder(s, line_a, line_b));
        assert_eq!(run, Run { status: still.into(), out, err: String::new() });

        let node = plain::summary(s, a, b);
        let node = node
            .map(|node| [node.first, node.last, node.toggles].map(|lines| number(lines & mask)));
        ask(&folder, &format!("summary {lines} --from {a} --to {b} {file}"), &text(node));

        let samples = (a..b.min(len)).map(|i| [i, number(s[i] & mask)]);
        ask(&folder, &format!("samples {lines} --from {a} --to {b} {file}"), &text(samples));

        let view = View { start: a as f64 - 5.5, spp: rng.pick(&[0.3, 1.0, 7.7]) };
        let pixels = plain::render(s, view, 30);
        let pixels = pixels
            .iter()
            .map(|pixel| [pixel.first, pixel.toggles].map(|lines| number(lines & mask)));
        let asked = format!("--start {} --spp {} --width 30", view.start, view.spp);
        ask(&folder, &format!("render --pixels {lines} {asked} {file}"), &text(pixels));

        assert_eq!(folder.run(&format!("check {file}")).yes(), "whole\n");
    }
}

/// A shelf file of unit 1 with a mark.
fn shelved() -> Vec<u8> {
    file(1, Some(2), &[0, 0, 1, 1, 0, 2, 2, 3])
}

fn saved(test: &str) -> Folder {
    let folder = Folder::new(test);
    folder.write("a.shelf", &shelved());
    folder
}

#[test]
fn a_shelf_file_and_its_numbers() {
    let folder = saved("questions-info");
    let info = "format shelf\nunit 1\nsamples 8\nmark 2\nrate 4\nseconds 2\nchanging 0,1\n";
    assert_eq!(folder.run("info --rate 4 a.shelf").yes(), info);
    assert_eq!(folder.run_on("info --rate 4 -", &shelved()).yes(), info);
    let timeless = info.replace("rate 4\nseconds 2", "rate -\nseconds -");
    assert_eq!(folder.run("info a.shelf").yes(), timeless);
    // Only --unit makes raw samples of a file.
    let raw = folder.run("info --unit 2 a.shelf").yes();
    assert!(raw.starts_with("format raw\nunit 2\nsamples 512\nmark -\n"), "{raw}");

    // A capture may be empty, and a mark behind its last sample.
    folder.write("none.shelf", &file(2, Some(0), &[]));
    let info = "format shelf\nunit 2\nsamples 0\nmark 0\nrate -\nseconds -\nchanging -\n";
    assert_eq!(folder.run("info none.shelf").yes(), info);
    folder.run("next --from mark none.shelf").none();
    folder.write("end.shelf", &file(1, Some(3), &[0, 1, 1]));
    assert_eq!(folder.run("prev --from mark end.shelf").yes(), "1\n");
    assert!(!folder.run("render --ascii end.shelf").yes().contains("mark"));
    assert_eq!(folder.run("info --grant 0 end.shelf").yes().lines().nth(2), Some("first -3"));

    folder.write("empty", b"");
    let info = "format raw\nunit 2\nsamples 0\nmark -\nrate -\nseconds -\nchanging -\n";
    assert_eq!(folder.run("info --unit 2 empty").yes(), info);
    folder.run("next --unit 1 empty").none();
    folder.run("samples --unit 1 empty").none();
    folder.run("burst --unit 1 --at 0 --gap 9 empty").none();
    folder.run("bursts --unit 1 --gap 9 empty").none();
}

#[test]
fn places_from_the_mark_and_the_end() {
    let folder = saved("questions-places");
    assert_eq!(folder.run("next --lines 0 --from mark a.shelf").yes(), "4\n");
    assert_eq!(folder.run("next --lines 0 --from mark-1 a.shelf").yes(), "2\n");
    assert_eq!(folder.run("prev --lines 0 --from mark+1 a.shelf").yes(), "2\n");
    assert_eq!(folder.run("prev a.shelf").yes(), "7\n");
    assert_eq!(folder.run("samples --from end-2 a.shelf").yes(), "6 2\n7 3\n");
    folder.run("next --from end a.shelf").none();
    folder.run("next --from 18446744073709551615 a.shelf").none();
    folder.run("samples --from 18446744073709551615 a.shelf").none();
}

#[test]
fn the_nodes_read_stand_behind_the_answer() {
    let folder = saved("questions-read");
    let none = |out: &str| Run { status: 1, out: out.into(), err: String::new() };
    // The capture is shorter than a node, so each node read is a sample.
    assert_eq!(folder.run("next --read --lines 0 a.shelf").yes(), "2 2\n");
    assert_eq!(folder.run("next --read --lines 0 --from 7 a.shelf"), none("none 0\n"));
    assert_eq!(folder.run("next --lines 1 --from 5 --read a.shelf"), none("none 2\n"));
    assert_eq!(folder.run("prev --lines 0 --from 6 a.shelf --read").yes(), "4 3\n");
    assert_eq!(
        folder.run("burst --read --lines 0 --at 3 --gap 4 --budget 1 a.shelf").yes(),
        "2 7 1 0 6\n"
    );
    assert_eq!(folder.run("burst --read --lines 0 --at 3 --gap 2 a.shelf"), none("none 3\n"));
    assert_eq!(folder.run("burst --read --lines 0 --at 3 --gap 1 a.shelf"), none("none 0\n"));
    // A mill reads the same nodes; its places count from the mark.
    assert_eq!(folder.run("next --read --grant 0 a.shelf").yes(), "0 2\n");
    assert_eq!(folder.run("next --read --grant 0 --from 5 a.shelf"), none("none 0\n"));
    assert_eq!(folder.run("prev --read --grant 0,5 --lines 0 --from 4 a.shelf").yes(), "2 3\n");
    assert_eq!(
        folder.run("burst --read --grant 0 --at 1 --gap 4 --budget 1 a.shelf").yes(),
        "0 5 1 0 6\n"
    );
}

#[test]
fn numbers_in_other_forms() {
    let folder = saved("questions-forms");
    assert_eq!(folder.run("changes a.shelf --hex --from 5").yes(), "5 0x02 0x02\n7 0x03 0x01\n");
    assert_eq!(folder.run("summary a.shelf --bits").yes(), "00000000 00000011 00000011\n");
    assert_eq!(folder.run("samples a.shelf --from 7 --bits --lines 1").yes(), "7 00000010\n");
    assert_eq!(
        folder.run("render --pixels a.shelf --spp 4 --width 2 --hex").yes(),
        "0x00 0x01\n0x00 0x03\n"
    );
}

#[test]
fn half_a_sample_at_the_end_of_a_raw_file() {
    let folder = Folder::new("questions-leftover");
    folder.write("a.bin", &[1, 0, 2, 0, 3]);
    let run = folder.run("samples --unit 2 a.bin");
    assert_eq!((run.status, run.out.as_str()), (0, "0 1\n1 2\n"));
    assert_eq!(
        run.err,
        "logic-capture samples: a.bin: the last byte is half a sample, and is dropped\n"
    );
}

#[test]
fn drawings() {
    let folder = saved("questions-drawings");
    let text = folder.run("render --ascii --lines 1,0 a.shelf").yes();
    let rows: Vec<&str> = text.lines().collect();
    assert_eq!(rows.len(), 4);
    assert_eq!(rows[0], "place 0               2               4               6");
    assert_eq!(rows[1], format!("mark  {:16}v 2", ""));
    assert_eq!(rows[2], format!(" 1    {}/{}", "_".repeat(39), "-".repeat(24)));
    assert_eq!(
        rows[3],
        format!(
            " 0    {}/{}\\{}/{}",
            "_".repeat(15),
            "-".repeat(15),
            "_".repeat(23),
            "-".repeat(8)
        )
    );

    let boxes = folder.run_words(
        &["render", "--lines", "0", "--width", "8", "--name", "0=a name", "a.shelf"],
        &[],
    );
    let expected = "place     0\nmark        ▼ 2\n           ┌─┐  ┌─\n 0 a name ─┘ └──┘\n";
    assert_eq!(boxes.yes(), expected);

    folder.run("render --svg a.svg a.shelf").yes();
    let picture = String::from_utf8(folder.read("a.svg")).unwrap();
    assert!(picture.starts_with("<svg ") && picture.ends_with("</svg>\n"));
    assert_eq!(folder.run("render --svg - a.shelf").yes(), picture);
    assert_eq!(picture.matches("stroke-width").count(), 8);
    assert!(picture.contains("mark 2</text>"));
}

#[test]
fn where_a_capture_is_busy() {
    let folder = saved("questions-density");
    // Changes at 2, 4, 5 and 7.
    assert_eq!(folder.run("density a.shelf").yes(), "4\n");
    assert_eq!(folder.run("density --from mark a.shelf").yes(), "3\n");
    assert_eq!(folder.run("density --from mark-1 --to end-1 a.shelf").yes(), "3\n");
    assert_eq!(folder.run("density --to 99 a.shelf").yes(), "4\n");
    for empty in ["--from 8", "--from 3 --to 2", "--to 2", "--from 18446744073709551615"] {
        let run = folder.run(&format!("density {empty} a.shelf"));
        assert_eq!(run, Run { status: 1, out: "0\n".into(), err: String::new() });
    }

    let bars = "0 0\n2 1 #####\n4 2 ##########\n6 1 #####\n";
    assert_eq!(folder.run("density --parts 4 --ascii --width 10 a.shelf").yes(), bars);
    let bars = "0 0\n2 1 █▌\n4 2 ███\n6 1 █▌\n";
    assert_eq!(folder.run("density --parts 4 --width 3 a.shelf").yes(), bars);
    let longest = format!("0 4 {}\n", "█".repeat(50));
    assert_eq!(folder.run("density --parts 1 a.shelf").yes(), longest);
    assert_eq!(folder.run("density --parts 8 a.shelf").yes().lines().count(), 8);
    let quiet = folder.run("density --parts 2 --to 2 a.shelf");
    assert_eq!(quiet, Run { status: 1, out: "0 0\n1 0\n".into(), err: String::new() });

    folder.run("density --parts 4 --svg a.svg a.shelf").yes();
    let picture = String::from_utf8(folder.read("a.svg")).unwrap();
    assert!(picture.starts_with("<svg ") && picture.ends_with("</svg>\n"));
    assert_eq!(folder.run("density --parts 4 --svg - a.shelf").yes(), picture);
    assert!(picture.contains("<title>4 to 5: 2</title>") && picture.contains("mark 2</text>"));
    // Where parts are not said, there is one for each sample here; four have a change.
    let picture = folder.run("density --svg - --width 80 a.shelf").yes();
    assert_eq!(picture.matches("<title>").count(), 4);
    let err = "logic-capture density: no samples to draw\n".to_string();
    let run = folder.run("density --from 8 --svg x.svg a.shelf");
    assert_eq!(run, Run { status: 1, out: String::new(), err });
    assert!(!folder.has("x.svg"));
}

#[test]
fn a_long_capture_has_a_hundred_parts_in_its_picture() {
    let folder = Folder::new("questions-hundred");
    let samples: Vec<u8> = (0..100_000).map(|i| (i / 7 % 2) as u8).collect();
    folder.write("a.bin", &samples);
    let picture = folder.run("density --svg - --unit 1 a.bin").yes();
    assert_eq!(picture.matches("<title>").count(), 100);
    assert_eq!(folder.run("density --unit 1 a.bin").yes(), "14285\n");
}

#[test]
fn all_bursts_of_a_capture() {
    let folder = Folder::new("questions-bursts");
    // The digits differ in line 0 alone. It changes at 2, 4, 5, 9, 18, 20, 27 and 30.
    //           0    5    10   15   20   25   30
    let line = b"0011011110000000001100000001110";
    folder.write("a.bin", line);
    let ask = |line: &str| folder.run(&format!("bursts --unit 1 {line} a.bin"));
    let none = |out: &str| Run { status: 1, out: out.into(), err: String::new() };
    for gap in ["0", "1"] {
        ask(&format!("--gap {gap}")).none();
        assert_eq!(ask(&format!("--gap {gap} --total")), none("0 0\n"));
    }
    assert_eq!(ask("--gap 2").yes(), "4 5 2\n");
    assert_eq!(ask("--gap 3").yes(), "2 5 3\n18 20 2\n");
    // The change at 9 is four behind that at 5.
    assert_eq!(ask("--gap 4").yes(), "2 5 3\n18 20 2\n27 30 2\n");
    assert_eq!(ask("--gap 5").yes(), "2 9 4\n18 20 2\n27 30 2\n");
    assert_eq!(ask("--gap 5 --total").yes(), "3 8\n");
    assert_eq!(ask("--gap 8 --lines 0").yes(), "2 9 4\n18 30 4\n");
    assert_eq!(ask("--gap 9 --total --lines 0-3").yes(), "2 8\n");
    for gap in ["10", "18446744073709551615"] {
        assert_eq!(ask(&format!("--gap {gap}")).yes(), "2 30 8\n");
    }
    ask("--gap 9 --lines 1,4-7").none();
    assert_eq!(ask("--gap 9 --lines 1,4-7 --total"), none("0 0\n"));
    assert_eq!(folder.run_on("bursts --unit 1 --gap 2 -", line).yes(), "4 5 2\n");
}

#[test]
fn how_far_an_encoder_has_turned() {
    let folder = saved("questions-encoder");
    let ask = |line: &str, samples: &[u8]| folder.run_on(&format!("encoder {line} -"), samples);
    let raw = "--unit 1 --a 0 --b 1";
    let forward = "position 4 forward 4 backward 0 skipped 0\n";
    assert_eq!(ask(raw, &[0, 1, 3, 2, 0]).yes(), forward);
    let backward = "position -4 forward 0 backward 4 skipped 0\n";
    assert_eq!(ask(raw, &[0, 2, 3, 1, 0]).yes(), backward);
    assert_eq!(ask("--unit 1 --a 1 --b 0", &[0, 1, 3, 2, 0]).yes(), backward);
    // A skip, and a step backward from there.
    let skip = "position -1 forward 0 backward 1 skipped 1\n";
    assert_eq!(ask(raw, &[0, 3, 1]).yes(), skip);
    // Where neither line changes it has not moved, which is a no.
    for still in [&[][..], &[3], &[3, 7, 3]] {
        let out = "position 0 forward 0 backward 0 skipped 0\n".into();
        assert_eq!(ask(raw, still), Run { status: 1, out, err: String::new() });
    }

    // A shelf file is read from its first sample on, and not from its mark.
    let all = "position 2 forward 3 backward 1 skipped 0\n";
    assert_eq!(folder.run("encoder --a 1 --b 0 a.shelf").yes(), all);
    assert_eq!(folder.run("encoder --grant 0,1 --a 1 --b 0 a.shelf").yes(), all);
    assert_eq!(folder.run_on("encoder --a 1 --b 0 -", &shelved()).yes(), all);

    // Turns stand behind, as a decimal.
    let turns = |steps: &str, samples: &[u8]| {
        let out = ask(&format!("{raw} --steps-per-turn {steps}"), samples).yes();
        out.trim_end().rsplit_once(" turns ").unwrap().1.to_string()
    };
    assert_eq!(turns("4", &[0, 1, 3, 2, 0]), "1");
    assert_eq!(turns("8", &[0, 1, 3, 2, 0]), "0.5");
    assert_eq!(turns("400", &[0, 2, 3, 1, 0]), "-0.01");
    assert_eq!(turns("3", &[0, 1]), "0.3333333333333333");
    assert_eq!(turns("400", &[0, 1, 0]), "0");
    let line = format!("{raw} --steps-per-turn 400");
    let out = "position 0 forward 0 backward 0 skipped 0 turns 0\n".into();
    assert_eq!(ask(&line, &[]), Run { status: 1, out, err: String::new() });
}

#[test]
fn nothing_to_draw() {
    let folder = saved("questions-nothing");
    folder.write("empty", b"");
    for line in [
        "a.shelf --from 8",
        "a.shelf --from 2 --to 2",
        "a.shelf --from 9 --svg x.svg",
        "--unit 1 empty",
    ] {
        let err = "logic-capture render: no samples to draw\n".to_string();
        assert_eq!(
            folder.run(&format!("render {line}")),
            Run { status: 1, out: String::new(), err }
        );
    }
    assert!(!folder.has("x.svg"));
}

#[test]
fn a_reader_that_has_enough_is_no_error() {
    use std::io::Read;
    let folder = Folder::new("questions-unread");
    folder.write("a.bin", &[7; 1_000_000]);
    let mut tool = folder.command(&["samples", "--unit", "1", "a.bin"]).spawn().unwrap();
    let mut start = [0; 8];
    tool.stdout.take().unwrap().read_exact(&mut start).unwrap();
    assert_eq!(&start, b"0 7\n1 7\n");
    let output = tool.wait_with_output().unwrap();
    assert_eq!((output.status.code(), output.stderr), (Some(0), vec![]));
}
