//! With --grant each answer is a mill's: places from the mark, granted lines, and nothing of the others.

mod common;
#[path = "../../capture/tests/plain/mod.rs"]
mod plain;

use capture::{Burst, ListedBurst, View};
use common::{turned, Folder, Run};
use plain::file::file;
use plain::walk::Walk;
use plain::Rng;

/// What is said of a line beyond the grant.
const BEYOND: &str = "refused, 12: a line is beyond the grant";

/// The answers as lines of text.
fn text(answers: impl IntoIterator<Item = impl AsRef<[i64]>>) -> String {
    let words = |numbers: &[i64]| numbers.iter().map(i64::to_string).collect::<Vec<_>>().join(" ");
    answers.into_iter().map(|numbers| words(numbers.as_ref()) + "\n").collect()
}

/// Asks the tool, which must give these answers, or none with status 1.
fn ask(folder: &Folder, line: &str, answers: &str) {
    let run = folder.run(line);
    if answers.is_empty() {
        run.none();
    } else {
        assert_eq!(run.yes(), answers, "{line}");
    }
}

#[test]
fn answers_are_those_of_plain_scans_moved_and_cut() {
    let folder = Folder::new("mill-random");
    let mut rng = Rng(14);
    for round in 0..30 {
        let unit = 1 + round % 2;
        let (len, calm) = (rng.pick(&[0, 1, 2, 40, 300, 5000]), rng.pick(&[1, 5, 60]));
        let s = &rng.samples(len, unit, calm)[..];
        let somewhere = rng.below(len.max(1));
        let mark = rng.pick(&[None, Some(0), Some(somewhere), Some(len)]);
        folder.write("a.shelf", &file(unit, mark, s));
        let (grant, seen) =
            rng.pick(&[("0-15", 0xffff), ("all", 0xffff), ("0,4-6", 0x71), ("9,1", 0x202)]);
        let asked = format!("--grant {grant} a.shelf");
        let origin = mark.unwrap_or(0);
        let moved = |place: usize| place as i64 - origin as i64;
        let (a, b) = (rng.below(len + 3), rng.below(len + 3));
        let (from, to) = (moved(a), moved(b));
        let number = |lines: u16| i64::from(lines & seen);

        let walk = Walk::over(s);
        let next = walk.next_change(seen, a).map(|place| moved(place).to_string());
        folder.search(&format!("next --from {from} {asked}"), next);
        let prev = walk.prev_change(seen, a).map(|place| moved(place).to_string());
        folder.search(&format!("prev --from {from} {asked}"), prev);
        let last = walk.prev_change(seen, len).map(|place| moved(place).to_string());
        folder.search(&format!("prev {asked}"), last);

        let changes = (a.max(1)..b.min(len)).filter(|&i| (s[i] ^ s[i - 1]) & seen != 0);
        let changes = changes.map(|i| [moved(i), number(s[i]), number(s[i] ^ s[i - 1])]);
        let changes: Vec<_> = changes.collect();
        ask(&folder, &format!("changes --from {from} --to {to} {asked}"), &text(&changes));
        let total = folder.run(&format!("changes --from {from} --to {to} --total {asked}"));
        assert_eq!(total.out, format!("{}\n", changes.len()));

        let (gap, tolerance, budget) = (rng.below(50), rng.below(50), rng.below(5));
        let burst = walk.burst_at(seen, a, gap, tolerance, budget).map(|burst| {
            let Burst { first, last, jumps_at_end, jumps_at_start } = burst;
            format!("{} {} {jumps_at_end} {jumps_at_start}", moved(first), moved(last))
        });
        let how = format!("--at {from} --gap {gap} --tolerance {tolerance} --budget {budget}");
        folder.search(&format!("burst {how} {asked}"), burst);

        let bursts = plain::bursts(s, seen, gap);
        let bursts = bursts.into_iter().map(|ListedBurst { first, last, changes }| {
            [moved(first), moved(last), changes as i64]
        });
        ask(&folder, &format!("bursts --gap {gap} {asked}"), &text(bursts));

        let (line_a, line_b) = if seen == 0x202 { (9, 1) } else { (4, 0) };
        let still = walk.next_change(1 << line_a | 1 << line_b, 0).found.is_none();
        let run = folder.run(&format!("encoder --a {line_a} --b {line_b} {asked}"));
        let out = turned(plain::encoder(s, line_a, line_b));
        assert_eq!(run, Run { status: still.into(), out, err: String::new() });

        let node = plain::summary(s, a, b);
        let node = node.map(|node| [node.first, node.last, node.toggles].map(number));
        ask(&folder, &format!("summary --from {from} --to {to} {asked}"), &text(node));

        let samples = (a..b.min(len)).map(|i| [moved(i), number(s[i])]);
        ask(&folder, &format!("samples --from {from} --to {to} {asked}"), &text(samples));

        let view = View { start: from as f64 - 5.5, spp: rng.pick(&[0.3, 1.0, 7.7]) };
        let pixels = plain::render_from(s, origin, view, 30);
        let pixels = pixels.iter().map(|pixel| [pixel.first, pixel.toggles].map(number));
        let how = format!("--start {} --spp {} --width 30", view.start, view.spp);
        ask(&folder, &format!("render --pixels {how} {asked}"), &text(pixels));
    }
}

/// Two files of equal mark and length, alike in lines 0 and 2; they differ in other lines and in unit.
fn alike(test: &str) -> Folder {
    let folder = Folder::new(test);
    let one = [0, 1, 3, 5, 4, 0, 2, 1];
    folder.write("one.shelf", &file(1, Some(3), &one));
    let others = [0x9d30u16, 0x7a, 0, 0xff0a, 0x8000, 0x10, 0xfa, 2];
    let two: Vec<u16> = one.iter().zip(others).map(|(one, others)| one & 5 | others).collect();
    assert!(two.iter().zip(one).all(|(two, one)| two & 5 == one & 5));
    folder.write("two.shelf", &file(2, Some(3), &two));
    folder
}

#[test]
fn files_alike_in_granted_lines_give_the_same() {
    let folder = alike("mill-alike");
    for line in [
        "info",
        "info --rate 4",
        "next",
        "next --from -3 --lines 2",
        "next --lines 1",
        "next --from -4",
        "next --read",
        "next --read --lines 2 --from 2",
        "next --read --lines 1",
        "prev",
        "prev --from mark --lines 0",
        "prev --read",
        "changes",
        "changes --hex",
        "changes --bits --from -1 --to end-1",
        "changes --total",
        "burst --at 0 --gap 3",
        "burst --at mark-2 --gap 9 --lines 2,0",
        "burst --at 0 --gap 3 --read",
        "burst --at 0 --gap 1 --read",
        "bursts --gap 3",
        "bursts --gap 2",
        "bursts --gap 9 --lines 2",
        "bursts --gap 9 --lines 1",
        "bursts --gap 3 --total",
        "bursts",
        "summary",
        "summary --hex --from 0",
        "summary --from -3 --to -4",
        "samples",
        "samples --bits --from 9",
        "samples --lines 9",
        "samples --lines 16",
        "render",
        "render --ascii --from -2 --to 2 --name 2=drive",
        "render --svg -",
        "render --pixels",
        "render --pixels --start -9.5 --spp 0.5 --hex",
        "render --pixels --start nan",
        "check",
        "density",
        "density --parts 2",
        "encoder --a 0 --b 2",
        "encoder --a 2 --b 0 --steps-per-turn 3",
        "encoder --a 0 --b 1",
        "encoder --a 0 --b 9",
        "encoder --a 9 --b 9",
        "encoder --a 0 --b 16",
    ] {
        let [one, two] = ["one", "two"].map(|name| {
            let run = folder.run(&format!("{line} --grant 0,2 {name}.shelf"));
            Run { err: run.err.replace(&format!("{name}.shelf"), ""), ..run }
        });
        assert_eq!(one, two, "{line}");
    }
    // The service sees that they differ.
    assert_ne!(folder.run("samples one.shelf"), folder.run("samples two.shelf"));
}

#[test]
fn a_mill_and_what_it_is_shown() {
    let folder = alike("mill-shown");
    let info = "grant 0,2\nsamples 8\nfirst -3\nend 5\nmark 0\nrate 4\nseconds 2\nchanging 0,2\n";
    assert_eq!(folder.run("info --rate 4 --grant 2,0 one.shelf").yes(), info);
    folder.write("raw", &[0, 1]);
    let info = "grant 9\nsamples 2\nfirst 0\nend 2\nmark -\nrate -\nseconds -\nchanging -\n";
    assert_eq!(folder.run("info --unit 1 --grant 9 raw").yes(), info);
    assert_eq!(folder.run("next --grant 0 one.shelf").yes(), "-2\n");
    assert_eq!(folder.run("next --grant 0,2 --lines all --from mark one.shelf").yes(), "1\n");
    // Numbers are as wide as those of sixteen lines: a mill is not told the unit.
    assert_eq!(folder.run("samples --grant 2 --from 0 --to 1 --hex one.shelf").yes(), "0 0x0004\n");
    folder.run("next --unit 1 --grant 9 raw").none();
    // Lines 0 and 2 change at -2, 0, 1, 2 and 4; line 2 alone at 0 and 2.
    assert_eq!(folder.run("bursts --grant 0,2 --gap 2 one.shelf").yes(), "0 2 3\n");
    assert_eq!(folder.run("bursts --grant 0,2 --gap 3 one.shelf").yes(), "-2 4 5\n");
    assert_eq!(folder.run("bursts --grant 0,2 --lines 2 --gap 3 one.shelf").yes(), "0 2 2\n");
    assert_eq!(folder.run("bursts --grant 0,2 --gap 2 --total one.shelf").yes(), "1 3\n");
    folder.run("bursts --grant 2 --gap 2 one.shelf").none();
    // Without a mark they count from the first sample.
    assert_eq!(folder.run_on("bursts --unit 1 --grant 0 --gap 2 -", b"0010").yes(), "2 3 2\n");

    let drawn = folder.run("render --grant 2,0 --ascii --width 8 one.shelf").yes();
    let rows = ["place -3", "mark     v 0", " 0    /--\\__/-", " 2    __/-\\___"];
    assert_eq!(drawn.lines().collect::<Vec<_>>(), rows);
    let picture = folder.run("render --grant 2 --svg - one.shelf").yes();
    assert!(picture.contains(">-3</text>") && picture.contains("mark 0</text>"), "{picture}");
    assert_eq!(picture.matches("stroke-width").count(), 1);
}

#[test]
fn what_a_mill_may_not_ask_is_refused() {
    let folder = alike("mill-refused");
    let before = "refused, 13: the place is before the first sample";
    for (command, place) in [
        ("next", "--from"),
        ("prev", "--from"),
        ("changes", "--from"),
        ("changes", "--to"),
        ("summary", "--from"),
        ("summary", "--to"),
        ("samples", "--from"),
        ("samples", "--to"),
        ("render", "--from"),
        ("render", "--to"),
        ("burst --gap 9", "--at"),
    ] {
        let name = command.split(' ').next().unwrap();
        // 12 comes first.
        let line = format!("{command} --grant 0,2 --lines 1,2 {place} -4 one.shelf");
        let said = folder.run(&line).bad();
        assert_eq!(said, format!("logic-capture {name}: --lines 1,2: {BEYOND}"));
        for place_text in ["-4", "mark-4", "end-9", "-9223372036854775809"] {
            let said = folder.run(&format!("{command} --grant 0 {place} {place_text} one.shelf"));
            assert_eq!(said.bad(), format!("logic-capture {name}: {place} {place_text}: {before}"));
        }
    }
    let said = folder.run("bursts --gap 9 --grant 0,2 --lines 1,2 one.shelf").bad();
    assert_eq!(said, format!("logic-capture bursts: --lines 1,2: {BEYOND}"));
    for lines in ["--a 0 --b 1", "--a 1 --b 2", "--a 15 --b 0"] {
        let said = folder.run(&format!("encoder --grant 0,2 {lines} one.shelf")).bad();
        assert_eq!(said, format!("logic-capture encoder: {lines}: {BEYOND}"));
    }
    // 14 comes ahead of 12.
    let equal = "refused, 14: an encoder's two lines are 0 to 15, and not the same";
    for lines in ["--a 0 --b 0", "--a 1 --b 1", "--a 15 --b 15"] {
        let said = folder.run(&format!("encoder --grant 0,2 {lines} one.shelf")).bad();
        assert_eq!(said, format!("logic-capture encoder: {lines}: {equal}"));
    }
    for (line, what) in [
        (
            "check --grant 0 one.shelf",
            " check: --grant: the check of summaries is not given to mills",
        ),
        (
            "density --grant 0-15 one.shelf",
            " density: --grant: the count of changes tells of all lines, and is not given to mills",
        ),
        (
            "record --unit 1 --grant 0 -o x.shelf one.shelf",
            " record: --grant: raw samples are not given to mills",
        ),
        ("demo --grant 0", " demo: there is no option '--grant'; see --help"),
        ("shelf --grant 0 .", " shelf: --grant: the files of a folder are not shown to mills"),
        (
            "salvage --grant 0 one.shelf -o x.shelf",
            " salvage: --grant: files are not given to mills",
        ),
        (
            "next --grant 0 --stretches x.list --certain one.shelf",
            " next: --grant: unknown stretches are not given to mills",
        ),
        (
            "prev --grant 0 --stretches x.list --possible one.shelf",
            " prev: --grant: unknown stretches are not given to mills",
        ),
        (
            "changes --grant 0 --stretches x.list --certain one.shelf",
            " changes: --grant: unknown stretches are not given to mills",
        ),
        (
            "render --grant 0 --stretches x.list one.shelf",
            " render: --grant: unknown stretches are not given to mills",
        ),
        (
            "encoder --grant 0,2 --a 16 --b 0 one.shelf",
            " encoder: --a 16: '16' is no line: lines are 0 to 15",
        ),
        ("next --grant 16 one.shelf", " next: --grant 16: '16' is no line: lines are 0 to 15"),
        ("next --grant 0 --grant 1 one.shelf", " next: --grant is given twice"),
        (
            "next --grant 0 --from 9223372036854775808 one.shelf",
            " next: --from 9223372036854775808: too far",
        ),
        (
            "next --from -1 one.shelf",
            " next: --from -1: a place is a number, mark or end, as in mark+10",
        ),
    ] {
        assert_eq!(folder.run(line).bad(), format!("logic-capture{what}"), "{line}");
    }
    assert!(!folder.has("x.shelf"));
    // The view of --pixels may begin anywhere.
    let blank = "0 0\n0 0\n";
    let line = "render --pixels --grant 0 --start -99 --spp 1 --width 2 one.shelf";
    assert_eq!(folder.run(line).yes(), blank);
    folder.run("next --grant 0 --from 9223372036854775807 one.shelf").none();
    folder.run("samples --grant 0 --from 9223372036854775807 one.shelf").none();
}
