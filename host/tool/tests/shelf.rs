//! `shelf`: each capture of a folder in a line, sound or what is wrong with it.

mod common;
#[path = "../../capture/tests/plain/mod.rs"]
mod plain;

use common::{Folder, Run};
use plain::file::{file, seal};
use plain::Rng;
use std::ffi::OsStr;
use std::fs;
use std::os::unix::ffi::OsStrExt;
use std::os::unix::fs::symlink;

/// What a listing says.
fn listed(run: Run, status: i32, lines: &[&str]) {
    assert_eq!((run.status, run.err.as_str()), (status, ""));
    assert_eq!(run.out.lines().collect::<Vec<_>>(), lines);
}

#[test]
fn sound_captures_sorted_by_name() {
    let folder = Folder::new("shelf-sound");
    let round: Vec<u16> = [0, 1, 3, 2].repeat(300);
    folder.write("b.shelf", &file(1, Some(7), &round));
    folder.write("a.shelf", &file(2, None, &round.iter().map(|s| s << 11).collect::<Vec<_>>()));
    folder.write("c.shelf", &file(1, Some(0), &[]));
    folder.write("B.shelf", &file(2, Some(2), &[0, 2]));
    // Other files and folders are passed over, whatever they hold.
    folder.write("frame.bin", &[1, 2, 3]);
    folder.write("a.shelf.old", &[1, 2, 3]);
    folder.write("shelf", &[1, 2, 3]);
    fs::create_dir(folder.0.join("more.shelf")).unwrap();
    folder.write("more.shelf/x.shelf", &[1, 2, 3]);

    let lines = [
        "B.shelf sound unit=2 samples=2 mark=2",
        "a.shelf sound unit=2 samples=1200 mark=-",
        "b.shelf sound unit=1 samples=1200 mark=7",
        "c.shelf sound unit=1 samples=0 mark=0",
    ];
    listed(folder.run("shelf ."), 0, &lines);
    listed(folder.run(&format!("shelf {}", folder.0.display())), 0, &lines);

    // Lines that a capture of unit 1 lacks are low throughout.
    listed(
        folder.run("shelf --encoder 0,1 --encoder 12,11 . --encoder 15,1"),
        0,
        &[
            "B.shelf sound unit=2 samples=2 mark=2 0,1=-1 12,11=0 15,1=-1",
            "a.shelf sound unit=2 samples=1200 mark=- 0,1=0 12,11=-1199 15,1=0",
            "b.shelf sound unit=1 samples=1200 mark=7 0,1=1199 12,11=0 15,1=-1",
            "c.shelf sound unit=1 samples=0 mark=0 0,1=0 12,11=0 15,1=0",
        ],
    );
}

#[test]
fn totals_are_those_of_encoder() {
    let folder = Folder::new("shelf-totals");
    let mut rng = Rng(31);
    let mut lines = Vec::new();
    for number in 0..9 {
        let unit = 1 + number % 2;
        let s = rng.samples(2000 * number, unit, 3);
        let name = format!("{number}.shelf");
        folder.write(&name, &file(unit, None, &s));
        let [one, other] = [(0, 1), (9, 2)].map(|(a, b)| plain::encoder(&s, a, b).position);
        lines.push(format!(
            "{name} sound unit={unit} samples={} mark=- 0,1={one} 9,2={other}",
            s.len()
        ));
    }
    let lines: Vec<&str> = lines.iter().map(String::as_str).collect();
    listed(folder.run("shelf --encoder 0,1 --encoder 9,2 ."), 0, &lines);
}

type Damage = fn(&mut Vec<u8>);

/// A damaged file in a listing, and what a question says of it.
#[test]
fn each_damage_has_its_line() {
    let folder = Folder::new("shelf-bad");
    let good = file(1, Some(7), &[5; 700]);
    folder.write("good.shelf", &good);
    let cases: [(&str, Damage); 14] = [
        ("block 2: its check is 46387, and its bytes make 45763", |f| f[1024 + 208] = 2),
        ("block 0: its payload count is 19, and 18 is due", |f| f[2] = 19),
        ("block 1: its number is 2", |f| f[512 + 4] = 2),
        ("block 2: its bytes 8 to 11 are not zero", |f| f[1024 + 9] = 1),
        ("block 2: its byte 212, behind the payload, is not zero", |f| f[1024 + 212] = 1),
        ("block 0: its unit is 3, and a unit is 1 or 2", |f| f[12] = 3),
        ("block 0: its mark flag is 2, and a flag is 0 or 1", |f| f[13] = 2),
        ("block 0: its len is 67109564, above 67108864", |f| f[17] = 4),
        ("block 0: its mark is 775, above its len 700", |f| f[23] = 3),
        ("block 0: it has the mark 7, and says that there is none", |f| f[13] = 0),
        ("block 0: the file ends after 0 of its 512 bytes", |f| f.clear()),
        ("block 2: the file ends after 100 of its 512 bytes", |f| f.truncate(1124)),
        ("block 3: the file goes on, and has to end before it", |f| f.push(0)),
        ("block 1: its payload count is 0, and 500 is due", |f| f[512..1024].fill(0)),
    ];
    let mut lines = Vec::new();
    for (number, (what, damage)) in cases.into_iter().enumerate() {
        let mut bad = good.clone();
        damage(&mut bad);
        if !what.contains("check") {
            bad.chunks_exact_mut(512).for_each(seal);
        }
        let name = format!("bad-{number:02}.shelf");
        folder.write(&name, &bad);
        lines.push(format!("{name} bad {what}"));

        let hint = if what.starts_with("block 0") {
            "for raw samples add --unit 1 or --unit 2"
        } else {
            "'logic-capture salvage' reads what is good of it"
        };
        let refused = format!("{name}: refused, 16: no capture has this file: {what}; {hint}");
        for command in ["info", "check", "samples"] {
            let said = folder.run(&format!("{command} {name}")).bad();
            assert_eq!(said, format!("logic-capture {command}: {refused}"));
            let said = folder.run_on(&format!("{command} -"), &bad).bad();
            let refused = refused.replacen(&name, "standard input", 1);
            assert_eq!(said, format!("logic-capture {command}: {refused}"));
        }
    }
    lines.push("good.shelf sound unit=1 samples=700 mark=7 0,2=0".into());
    let lines: Vec<&str> = lines.iter().map(String::as_str).collect();
    listed(folder.run("shelf --encoder 0,2 ."), 1, &lines);
}

#[test]
fn a_file_that_cannot_be_looked_at_is_bad() {
    let folder = Folder::new("shelf-unreadable");
    folder.write("a.shelf", &file(1, None, &[1]));
    symlink("a.shelf", folder.0.join("link.shelf")).unwrap();
    symlink("nowhere", folder.0.join("lost.shelf")).unwrap();
    symlink("round.shelf", folder.0.join("round.shelf")).unwrap();
    symlink(".", folder.0.join("folder.shelf")).unwrap();
    symlink("/dev/zero", folder.0.join("zero.shelf")).unwrap();
    let lines = [
        "a.shelf sound unit=1 samples=1 mark=-",
        "link.shelf sound unit=1 samples=1 mark=-",
        "lost.shelf bad No such file or directory (os error 2)",
        "round.shelf bad Too many levels of symbolic links (os error 40)",
    ];
    listed(folder.run("shelf ."), 1, &lines);
}

#[test]
fn odd_names_do_not_break_a_line() {
    let folder = Folder::new("shelf-names");
    let good = file(1, None, &[1, 2]);
    for name in
        [&b"a b.shelf"[..], b"c\nbad.shelf", b"d\xff.shelf", "größe.shelf".as_bytes(), b".shelf"]
    {
        fs::write(folder.0.join(OsStr::from_bytes(name)), &good).unwrap();
    }
    let sound = "sound unit=1 samples=2 mark=-";
    let names = [".shelf", "a\\x20b.shelf", "c\\x0abad.shelf", "d\\xff.shelf", "größe.shelf"];
    let lines = names.map(|name| format!("{name} {sound}"));
    listed(folder.run("shelf ."), 0, &lines.each_ref().map(|line| line.as_str()));
}

#[test]
fn a_folder_without_captures() {
    let folder = Folder::new("shelf-empty");
    folder.write("frame.bin", &[1]);
    let err = "logic-capture shelf: .: no file's name ends in .shelf\n".to_string();
    assert_eq!(folder.run("shelf ."), Run { status: 0, out: String::new(), err });
}
