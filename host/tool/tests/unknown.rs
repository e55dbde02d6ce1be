//! `next`, `prev` and `changes` across unknown stretches, each answer held against the plain model, and drawings that shade
//! them.

mod common;
#[path = "../../capture/tests/plain/mod.rs"]
mod plain;

use capture::Refusal;
use common::{Folder, Run};
use plain::file::{file, salvaged};
use plain::unknown::{is_unknown, next, prev, stretches, Across};
use plain::Rng;

/// A run that found this, or none.
fn found(place: Option<usize>) -> Run {
    let out = place.map(|place| format!("{place}\n")).unwrap_or_default();
    Run { status: place.is_none().into(), out, err: String::new() }
}

#[test]
fn what_was_salvaged_is_searched_with_the_list_that_was_saved() {
    let folder = Folder::new("unknown-salvaged");
    let mut rng = Rng(71);
    for round in 0..8 {
        let unit = 1 + round % 2;
        let mut bad = file(unit, Some(300), &rng.samples(1600, unit, 60));
        let blocks = bad.len() / 512;
        for _ in 0..round {
            bad[512 * (1 + rng.below(blocks - 1)) + rng.below(512)] ^= 1;
        }
        folder.write("bad.shelf", &bad);
        folder.run("salvage bad.shelf -o good.shelf");
        let (_, _, known) = salvaged(&bad).unwrap();
        let unknown = stretches(known.iter().map(Option::is_none));
        let s: Vec<_> = known.iter().map(|sample| sample.unwrap_or(0)).collect();

        for (lines, mask) in [("0", 1), ("1-3", 0b1110), ("all", 0xffff)] {
            let Across { certain, possible } = Across::by_pairs(&s, unit, &unknown, mask);
            for (how, places) in [("--certain", certain), ("--possible", possible)] {
                let asked =
                    format!("--lines {lines} --stretches good.shelf.stretches {how} good.shelf");
                let ask = |command: &str| folder.run(&format!("{command} {asked}"));
                assert_eq!(ask("next"), found(next(&places, 0)));
                assert_eq!(ask("prev"), found(prev(&places, usize::MAX)));
                for from in [249, 250, 499, 500, 1000, 1599, 1600] {
                    assert_eq!(ask(&format!("next --from {from}")), found(next(&places, from)));
                    assert_eq!(ask(&format!("prev --from {from}")), found(prev(&places, from)));
                }
                assert_eq!(ask("next --from mark"), found(next(&places, 300)));

                let (from, to) = (rng.below(800), 800 + rng.below(900));
                let inside = places.iter().filter(|&&place| from <= place && place < to);
                let line = |&place: &usize| {
                    let [here, before] = [place, place - 1].map(|at| !is_unknown(&unknown, at));
                    let shown = |known: bool, number: u16| match known {
                        true => (number & mask).to_string(),
                        false => "?".into(),
                    };
                    let changed = shown(here && before, s[place] ^ s[place - 1]);
                    format!("{place} {} {changed}\n", shown(here, s[place]))
                };
                let lines: Vec<String> = inside.map(line).collect();
                let command = format!("changes --from {from} --to {to}");
                let status = i32::from(lines.is_empty());
                let run = |out| Run { status, out, err: String::new() };
                assert_eq!(ask(&command), run(lines.concat()));
                let total = format!("{}\n", lines.len());
                assert_eq!(ask(&format!("{command} --total")), run(total));
            }
        }
    }
}

/// The samples at 3, 4 and 7 are unknown.
fn saved(test: &str) -> Folder {
    let folder = Folder::new(test);
    folder.write("a.shelf", &file(1, Some(2), &[1, 1, 0, 0, 0, 1, 3, 0]));
    folder.write("a.list", b"# unknown\n3 2\n7 1\n");
    folder
}

#[test]
fn answers_of_a_small_capture() {
    let folder = saved("unknown-small");
    let ask = |line: &str| folder.run(&format!("{line} --stretches a.list a.shelf"));
    assert_eq!(ask("next --certain").yes(), "2\n");
    assert_eq!(ask("next --certain --from mark").yes(), "6\n");
    assert_eq!(ask("next --certain --lines 0 --from mark"), found(None));
    assert_eq!(ask("next --possible --lines 0 --from mark").yes(), "3\n");
    assert_eq!(ask("prev --certain").yes(), "6\n");
    assert_eq!(ask("prev --certain --from 5").yes(), "2\n");
    assert_eq!(ask("prev --possible").yes(), "7\n");
    assert_eq!(ask("changes --certain").yes(), "2 0 1\n6 3 2\n");
    assert_eq!(ask("changes --certain --total").yes(), "2\n");
    let lines = "2 0x00 0x01\n3 ? ?\n4 ? ?\n5 0x01 ?\n6 0x03 0x02\n7 ? ?\n";
    assert_eq!(ask("changes --possible --hex").yes(), lines);
    assert_eq!(ask("changes --possible --total --lines 7").yes(), "4\n");

    // Raw samples have stretches too, and the list may come by standard input.
    folder.write("a.bin", &[1, 1, 0, 0, 0, 1, 3, 0]);
    let line = "next --certain --from 2 --stretches - --unit 1 a.bin";
    assert_eq!(folder.run_on(line, b"3 2\n7 1").yes(), "6\n");
    // In unit 2 there are four samples here.
    let list = folder.run_on("changes --possible --stretches - --unit 2 a.bin", b"3 1");
    assert_eq!(list.yes(), "1 0 257\n2 256 256\n3 ? ?\n");
}

#[test]
fn an_empty_list_is_the_ordinary_search() {
    let folder = saved("unknown-empty");
    folder.write("comment", b"# unknown stretches: first place, count of samples\n");
    folder.write("empty", b"");
    for list in ["empty", "comment", "/dev/null"] {
        for how in ["--certain", "--possible"] {
            for line in [
                "next",
                "next --from 6",
                "next --from end",
                "prev",
                "prev --lines 1 --from 6",
                "prev --from 1",
                "changes --bits",
                "changes --total",
                "changes --from end",
            ] {
                let across = folder.run(&format!("{line} {how} --stretches {list} a.shelf"));
                assert_eq!(across, folder.run(&format!("{line} a.shelf")), "{line}");
            }
        }
        for line in ["render", "render --ascii", "render --svg -"] {
            let across = folder.run(&format!("{line} --stretches {list} a.shelf"));
            assert_eq!(across, folder.run(&format!("{line} a.shelf")), "{line}");
        }
    }
    folder.write("none.shelf", &file(2, None, &[]));
    folder.run("next --possible --stretches empty none.shelf").none();
}

#[test]
fn drawings_are_shaded() {
    let folder = saved("unknown-drawings");
    let ask = |line: &str| folder.run(&format!("render {line} --stretches a.list a.shelf")).yes();
    let expected = [
        "place   0",
        "mark      ▼ 2",
        "unknown    ░░  ░",
        "        ─┐ ░░──░",
        " 0       └─░░  ░",
        "           ░░┌─░",
        " 1      ───░░┘ ░",
    ];
    let text = ask("--lines 0,1 --width 8");
    assert_eq!(text.lines().collect::<Vec<_>>(), expected);
    let text = ask("--lines 0,1 --width 8 --ascii");
    let expected =
        ["place   0", "mark      v 2", "unknown    ??  ?", " 0      -\\_??--?", " 1      ___??/-?"];
    assert_eq!(text.lines().collect::<Vec<_>>(), expected);
    // Where none is unknown there is no such row.
    assert_eq!(ask("--to 3"), folder.run("render --to 3 a.shelf").yes());

    let picture = ask("--svg -");
    for places in ["3 to 4", "7 to 7"] {
        assert!(picture.contains(&format!("<title>unknown samples in {places}</title>")));
    }
    assert_eq!(picture.matches("<title>").count(), 2);
    folder.run("render --svg a.svg --stretches a.list a.shelf").yes();
    assert_eq!(folder.read("a.svg"), picture.as_bytes());
}

#[test]
fn a_short_stretch_shows_in_a_long_capture() {
    let folder = Folder::new("unknown-short");
    // So busy that no column is left free.
    folder.write("a.bin", &[1, 0].repeat(500_000));
    folder.write("a.list", b"0 1\n123456 1\n999999 1\n");
    let asked = "--lines 0 --stretches a.list --unit 1 a.bin";
    for (style, shade) in [("", '░'), ("--ascii", '?')] {
        let text = folder.run(&format!("render {style} --width 50 {asked}")).yes();
        let row = text.lines().find_map(|line| line.strip_prefix("unknown ")).unwrap();
        let columns = row.chars().enumerate().filter(|(_, c)| *c == shade).map(|(at, _)| at);
        assert!(columns.eq([0, 6, 49]), "{text}");
    }
    let picture = folder.run(&format!("render --svg - {asked}")).yes();
    assert_eq!(picture.matches(r#"width="1.00""#).count(), 3, "{picture}");
}

/// Lists that the library refuses, with the line of the first stretch that cannot be.
#[test]
fn a_list_of_another_capture_is_refused() {
    let folder = saved("unknown-refused");
    for (list, line) in [
        ("0 9", 1),
        ("8 1", 1),
        ("# count\n3 0\n", 2),
        ("1 18446744073709551615", 1),
        ("3 2\n5 1", 2),
        ("3 2\n4 1", 2),
        ("7 1\n\n3 2\n", 3),
        ("0 1\n2 1\n4 1\n6 3\n", 4),
    ] {
        folder.write("x.list", list.as_bytes());
        for command in ["next --certain", "prev --possible", "changes --certain", "render --svg x"]
        {
            let name = command.split(' ').next().unwrap();
            let said = folder.run(&format!("{command} --stretches x.list a.shelf")).bad();
            let what = format!("x.list: line {line}: {}", Refusal::Stretches);
            assert_eq!(said, format!("logic-capture {name}: {what}"));
        }
    }
    assert!(!folder.has("x"));
}
