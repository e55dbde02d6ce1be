//! Bad usage and input: one line that says what was wrong and where, and status 2.

mod common;
#[path = "../../capture/tests/plain/mod.rs"]
mod plain;

use capture::{Fault, BLOCK};
use common::Folder;
use plain::file::{file, is_one, seal};
use plain::Rng;

#[test]
fn what_is_wrong_is_said() {
    let folder = Folder::new("bad-usage");
    folder.write("a.shelf", &file(1, None, &[0, 1, 0]));
    folder.write("a.bin", &[0, 1, 0]);
    folder.write("zeros", &[0; 512]);
    folder.write("empty", b"");
    folder.write("a.list", b"1 1\n");
    folder.write("b.list", b"# list\n0 1\n2 one\n");
    folder.write("c.list", b"0 1\n2 18446744073709551616\n");
    for (line, what) in [
        ("", ": which command? 'logic-capture --help' lists them"),
        ("fly", ": there is no command 'fly'; 'logic-capture --help' lists them"),
        ("help fly", ": there is no command 'fly'; 'logic-capture --help' lists them"),
        ("info", " info: which file? - is standard input"),
        ("info nowhere", " info: nowhere: No such file or directory (os error 2)"),
        ("info .", " info: .: Is a directory (os error 21)"),
        (
            "info a.bin",
            " info: a.bin: refused, 16: no capture has this file: block 0: the file ends after 3 of its 512 bytes; for raw samples add --unit 1 or --unit 2",
        ),
        (
            "next empty",
            " next: empty: refused, 16: no capture has this file: block 0: the file ends after 0 of its 512 bytes; for raw samples add --unit 1 or --unit 2",
        ),
        (
            "check zeros",
            " check: zeros: refused, 16: no capture has this file: block 0: its payload count is 0, and 18 is due; for raw samples add --unit 1 or --unit 2",
        ),
        (
            "check /proc/self/mem",
            " check: /proc/self/mem: Input/output error (os error 5); 'logic-capture salvage' reads what is good of it",
        ),
        (
            "info --grant 0 /proc/self/mem",
            " info: /proc/self/mem: Input/output error (os error 5)",
        ),
        ("info --grant 0 zeros", " info: zeros: refused, 16: no capture has this file"),
        ("info --unit 0 a.bin", " info: --unit 0: a unit is 1 or 2 bytes a sample"),
        ("info --rate 0 a.shelf", " info: --rate 0: a rate is above 0"),
        ("next --rate 5 a.shelf", " next: there is no option '--rate'; see --help"),
        ("shelf", " shelf: which folder?"),
        ("shelf nowhere", " shelf: nowhere: No such file or directory (os error 2)"),
        ("shelf a.shelf", " shelf: a.shelf: Not a directory (os error 20)"),
        ("shelf . .", " shelf: '.' is one file too many beside '.'"),
        ("shelf . --unit 1", " shelf: there is no option '--unit'; see --help"),
        ("shelf . --encoder 3", " shelf: --encoder 3: an encoder is two lines, as in 11,12"),
        ("shelf . --encoder 3,", " shelf: --encoder 3,: not a whole number"),
        ("shelf . --encoder 3,4,5", " shelf: --encoder 3,4,5: not a whole number"),
        ("shelf . --encoder 3,-4", " shelf: --encoder 3,-4: not a whole number"),
        (
            "shelf . --encoder 0,1 --encoder 3,3",
            " shelf: --encoder 3,3: refused, 14: an encoder's two lines are 0 to 15, and not the same",
        ),
        (
            "shelf . --encoder 16,3",
            " shelf: --encoder 16,3: refused, 14: an encoder's two lines are 0 to 15, and not the same",
        ),
        ("salvage a.shelf", " salvage: -o FILE is missing; see --help"),
        ("salvage -o b.shelf", " salvage: which file? - is standard input"),
        ("salvage a.shelf -o -", " salvage: --output -: standard output is taken; name a file"),
        ("salvage a.shelf -o .", " salvage: .: Is a directory (os error 21)"),
        ("salvage a.shelf -o /dev/null", " salvage: /dev/null: not a plain file"),
        (
            "salvage a.shelf -o no/b.shelf",
            " salvage: no/b.shelf: No such file or directory (os error 2)",
        ),
        (
            "salvage nowhere -o b.shelf",
            " salvage: nowhere: No such file or directory (os error 2)",
        ),
        (
            "salvage . -o b.shelf",
            " salvage: .: refused, 17: no capture's file begins like this: block 0: Is a directory (os error 21)",
        ),
        (
            "salvage a.bin -o b.shelf",
            " salvage: a.bin: refused, 17: no capture's file begins like this: block 0: the file ends after 3 of its 512 bytes",
        ),
        ("salvage a.shelf --unit 1", " salvage: there is no option '--unit'; see --help"),
        ("next a.shelf --lines 8", " next: --lines 8: '8' is no line: lines are 0 to 7"),
        ("next a.shelf --lines 3-1", " next: --lines 3-1: '3-1' runs backward"),
        ("next a.shelf --lines", " next: --lines needs a value behind it"),
        ("next a.shelf --from mark", " next: --from mark: this capture has no mark"),
        ("next a.shelf --from x", " next: --from x: a place is a number, mark or end, as in mark+10"),
        ("next a.shelf --from end-4", " next: --from end-4: before the first sample"),
        ("next a.shelf --to 3", " next: there is no option '--to'; see --help"),
        ("next a.shelf --from 1 --from 2", " next: --from is given twice"),
        ("next a.shelf --read --read", " next: --read is given twice"),
        ("prev a.shelf --read=1", " prev: --read takes no value"),
        ("burst a.shelf --read", " burst: --at PLACE is missing; see --help"),
        ("changes a.shelf --read", " changes: there is no option '--read'; see --help"),
        ("next a.shelf a.shelf", " next: 'a.shelf' is one file too many beside 'a.shelf'"),
        ("next a.shelf --certain", " next: --certain goes with --stretches"),
        ("prev a.shelf --possible", " prev: --possible goes with --stretches"),
        ("changes a.shelf --certain --total", " changes: --certain goes with --stretches"),
        (
            "next a.shelf --stretches a.list",
            " next: --stretches goes with --certain or --possible",
        ),
        (
            "changes a.shelf --stretches a.list --total",
            " changes: --stretches goes with --certain or --possible",
        ),
        (
            "prev a.shelf --stretches a.list --certain --possible",
            " prev: --certain and --possible exclude each other",
        ),
        ("next a.shelf --certain --possible", " next: --certain and --possible exclude each other"),
        (
            "next a.shelf --stretches a.list --certain --read",
            " next: --stretches and --read exclude each other",
        ),
        ("next a.shelf --stretches", " next: --stretches needs a value behind it"),
        ("next a.shelf --stretches a.list --stretches a.list", " next: --stretches is given twice"),
        ("next a.shelf --certain=1 --stretches a.list", " next: --certain takes no value"),
        ("next --stretches a.list --certain", " next: which file? - is standard input"),
        (
            "next - --stretches - --certain",
            " next: --stretches -: standard input is taken; name a file",
        ),
        (
            "render --stretches nowhere a.shelf",
            " render: nowhere: No such file or directory (os error 2)",
        ),
        ("changes --stretches . --possible a.shelf", " changes: .: Is a directory (os error 21)"),
        (
            "next --stretches a.bin --certain a.shelf",
            " next: a.bin: line 1: a stretch is two numbers, its first place and its count, as in 4500 500",
        ),
        (
            "render --stretches a.shelf a.shelf",
            " render: a.shelf: line 1: it has 1000 bytes or more",
        ),
        ("prev --stretches b.list --certain a.shelf", " prev: b.list: line 3: not a whole number"),
        (
            "prev --stretches c.list --certain a.shelf",
            " prev: c.list: line 2: above 18446744073709551615",
        ),
        (
            "render --stretches /dev/zero a.shelf",
            " render: /dev/zero: line 1: it has 1000 bytes or more",
        ),
        (
            "render a.shelf --pixels --stretches a.list",
            " render: --pixels and --stretches exclude each other",
        ),
        (
            "render a.shelf --stretches a.list --certain",
            " render: there is no option '--certain'; see --help",
        ),
        (
            "samples a.shelf --stretches a.list",
            " samples: there is no option '--stretches'; see --help",
        ),
        ("burst a.shelf", " burst: --at PLACE is missing; see --help"),
        ("burst a.shelf --at 1", " burst: --gap SAMPLES is missing; see --help"),
        ("burst a.shelf --at 1 --gap -1", " burst: --gap -1: not a whole number"),
        ("bursts --gap 9", " bursts: which file? - is standard input"),
        ("bursts a.shelf", " bursts: --gap SAMPLES is missing; see --help"),
        ("bursts a.shelf --total --lines 0", " bursts: --gap SAMPLES is missing; see --help"),
        ("bursts a.shelf --gap", " bursts: --gap needs a value behind it"),
        ("bursts a.shelf --gap few", " bursts: --gap few: not a whole number"),
        (
            "bursts a.shelf --gap 18446744073709551616",
            " bursts: --gap 18446744073709551616: above 18446744073709551615",
        ),
        ("bursts a.shelf --gap 9 --gap 9", " bursts: --gap is given twice"),
        ("bursts a.shelf --gap 9 --lines 8", " bursts: --lines 8: '8' is no line: lines are 0 to 7"),
        ("bursts a.shelf --gap 9 --lines=", " bursts: --lines : '' is no line: lines are 0 to 7"),
        ("bursts a.shelf --gap 9 --total=1", " bursts: --total takes no value"),
        ("bursts a.shelf --gap 9 --at 1", " bursts: there is no option '--at'; see --help"),
        ("bursts a.shelf --gap 9 --read", " bursts: there is no option '--read'; see --help"),
        ("samples a.shelf --hex --bits", " samples: --hex and --bits exclude each other"),
        ("samples a.shelf --hex=2", " samples: --hex takes no value"),
        (
            "changes a.shelf --total --hex",
            " changes: --total prints a number; it takes no --hex or --bits",
        ),
        ("density a.shelf --parts 0", " density: --parts 0: parts are 1 to 65535"),
        ("density a.shelf --parts 65536", " density: --parts 65536: parts are 1 to 65535"),
        ("density a.shelf --parts -1", " density: --parts -1: not a whole number"),
        ("density a.shelf --parts 4", " density: --parts 4: the stretch has 3 samples"),
        ("density a.shelf --parts 4 --svg x.svg", " density: --parts 4: the stretch has 3 samples"),
        ("density a.shelf --from 9 --parts 1", " density: --parts 1: the stretch has 0 samples"),
        ("density a.shelf --ascii", " density: --ascii goes with --parts"),
        ("density a.shelf --width 9", " density: --width goes with --parts or --svg"),
        ("density a.shelf --parts 1 --width 0", " density: --width 0: a width is 1 to 65535"),
        (
            "density a.shelf --parts 1 --ascii --svg x.svg",
            " density: --ascii and --svg exclude each other",
        ),
        ("density a.shelf --lines 0", " density: there is no option '--lines'; see --help"),
        ("density a.shelf --from mark", " density: --from mark: this capture has no mark"),
        (
            "density a.shelf --svg no/x.svg",
            " density: no/x.svg: No such file or directory (os error 2)",
        ),
        ("encoder a.shelf", " encoder: --a LINE is missing; see --help"),
        ("encoder a.shelf --a 0", " encoder: --b LINE is missing; see --help"),
        ("encoder a.shelf --b 0", " encoder: --a LINE is missing; see --help"),
        ("encoder --a 0 --b 1", " encoder: which file? - is standard input"),
        (
            "encoder a.shelf --a 1 --b 1",
            " encoder: --a 1 --b 1: refused, 14: an encoder's two lines are 0 to 15, and not the same",
        ),
        ("encoder a.shelf --a 8 --b 1", " encoder: --a 8: '8' is no line: lines are 0 to 7"),
        ("encoder a.shelf --a 0 --b 16", " encoder: --b 16: '16' is no line: lines are 0 to 7"),
        (
            "encoder empty --unit 2 --a 16 --b 1",
            " encoder: --a 16: '16' is no line: lines are 0 to 15",
        ),
        ("encoder a.shelf --a 0-1 --b 1", " encoder: --a 0-1: '0-1' is no line: lines are 0 to 7"),
        ("encoder a.shelf --a -1 --b 1", " encoder: --a -1: '-1' is no line: lines are 0 to 7"),
        ("encoder a.shelf --a 0 --a 1", " encoder: --a is given twice"),
        (
            "encoder a.shelf --a 0 --b 1 --steps-per-turn 0",
            " encoder: --steps-per-turn 0: a turn has 1 step or more",
        ),
        (
            "encoder a.shelf --a 0 --b 1 --steps-per-turn 0.5",
            " encoder: --steps-per-turn 0.5: not a whole number",
        ),
        (
            "encoder a.shelf --a 0 --b 1 --from 1",
            " encoder: there is no option '--from'; see --help",
        ),
        ("render a.shelf --width 0", " render: --width 0: a width is 1 to 65535"),
        ("render a.shelf --width 65536", " render: --width 65536: a width is 1 to 65535"),
        ("render a.shelf --spp 1", " render: --spp goes with --pixels"),
        ("render a.shelf --pixels --svg x.svg", " render: --pixels and --svg exclude each other"),
        ("render a.shelf --ascii --svg x.svg", " render: --ascii and --svg exclude each other"),
        (
            "render a.shelf --svg no/x.svg",
            " render: no/x.svg: No such file or directory (os error 2)",
        ),
        (
            "render a.shelf --pixels --spp inf",
            " render: refused, 10: a view's start and samples per pixel are finite numbers",
        ),
        (
            "render a.shelf --name turner",
            " render: --name turner: 'turner' is no name such as 3=turner",
        ),
        ("demo a.shelf", " demo: the demonstration reads no file; -o FILE saves its capture"),
        ("demo -o -", " demo: --output -: standard output is taken; name a file"),
    ] {
        assert_eq!(folder.run(line).bad(), format!("logic-capture{what}"), "{line}");
    }
    assert!(!folder.has("x.svg") && !folder.has("b.shelf"));
}

#[test]
fn a_capture_that_is_too_long_is_refused() {
    let folder = Folder::new("bad-long");
    // A file with a hole: long, and takes no room.
    let file = std::fs::File::create(folder.0.join("long.bin")).unwrap();
    file.set_len(67_108_865).unwrap();
    let what = "logic-capture info: long.bin: more than 67108864 samples";
    assert_eq!(folder.run("info --unit 1 long.bin").bad(), what);
    file.set_len(67_108_864).unwrap();
    assert!(folder.run("info --unit 1 long.bin").yes().contains("samples 67108864\n"));
}

#[test]
fn garbage_is_answered_or_refused() {
    let folder = Folder::new("bad-garbage");
    folder.write("a.shelf", &file(1, Some(1), &[0, 1, 0]));
    folder.write("a.bin", &[0, 1, 0]);
    folder.write("a.list", b"1 1\n");
    let words = [
        "record",
        "info",
        "next",
        "prev",
        "changes",
        "burst",
        "bursts",
        "summary",
        "samples",
        "render",
        "check",
        "density",
        "encoder",
        "shelf",
        "salvage",
        "help",
        "--help",
        "-h",
        "--version",
        "--",
        "-",
        "-o",
        "--output",
        "x.shelf",
        "x.svg",
        "a.shelf",
        "a.bin",
        "nowhere",
        "",
        "--unit",
        "1",
        "2",
        "--unit=1",
        "--unit=2",
        "--lines",
        "0",
        "0-7",
        "all",
        "--from",
        "mark",
        "end-1",
        "mark+99999999999999999999",
        "--to",
        "--at",
        "--gap",
        "3",
        "--tolerance",
        "--budget",
        "--hex",
        "--bits",
        "--total",
        "--read",
        "--stretches",
        "--certain",
        "--possible",
        "a.list",
        "--width",
        "--parts",
        "--a",
        "--b",
        "--encoder",
        "0,1",
        ".",
        "--a=0",
        "--b=1",
        "--steps-per-turn",
        "--spp",
        "--start",
        "-1e308",
        "1e308",
        "nan",
        "--pixels",
        "--ascii",
        "--svg",
        "--name",
        "0=x",
        "--grant",
        "0,2",
        "-1",
        "mark-1",
        "--trigger",
        "0=rising",
        "=",
        "--pre",
        "0.5",
        "1s",
        "--limit",
        "--rate",
        "1G",
        "--capacity",
        "18446744073709551615",
        "18446744073709551616",
        "é",
        "\u{1f600}",
        "--lines=\u{1f600}",
        "-\u{1f600}",
    ];
    let mut rng = Rng(9);
    for _ in 0..600 {
        let mut line = vec![words[rng.below(15)]];
        line.extend((0..rng.below(7)).map(|_| rng.pick(&words)));
        let run = folder.run_words(&line, &[0, 1, 0, 1]);
        assert!((0..=2).contains(&run.status), "{line:?} {}", run.err);
        if run.status == 2 {
            assert_eq!(
                run.err.lines().last().map(|line| line.starts_with("logic-capture")),
                Some(true)
            );
        }
    }
}

#[test]
fn garbage_files_are_refused() {
    let folder = Folder::new("bad-files");
    let good = file(2, Some(1), &[0x100, 0x200, 0x300]);
    let mut rng = Rng(10);
    for _ in 0..300 {
        let mut bad = good.clone();
        for _ in 0..1 + rng.below(3) {
            let at = rng.below(bad.len());
            match rng.below(4) {
                0 => bad[at] = rng.number() as u8,
                1 => bad[at % 40] = rng.pick(&[0, 1, 2, 3, 18]),
                2 => drop(bad.remove(at)),
                _ => bad.insert(at, rng.pick(&[0, 1, 0xff])),
            }
        }
        bad.chunks_exact_mut(BLOCK).filter(|_| rng.below(2) == 0).for_each(seal);
        let run = folder.run_on("check -", &bad);
        if is_one(&bad) {
            assert_eq!(run.yes(), "whole\n");
        } else {
            let said = run.bad();
            let fault = Fault::of(&bad).unwrap();
            let what = format!("refused, 16: no capture has this file: {fault}");
            assert!(said.starts_with(&format!("logic-capture check: standard input: {what}")));
            let hint = match fault.block {
                0 => "; for raw samples add --unit 1 or --unit 2",
                _ => "; 'logic-capture salvage' reads what is good of it",
            };
            assert!(said.ends_with(hint), "{said}");
        }
    }
}
