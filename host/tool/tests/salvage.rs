//! `salvage`: what is good of a damaged file is saved as a sound one, the rest is told, in lines and in a list beside it.

mod common;
#[path = "../../capture/tests/plain/mod.rs"]
mod plain;

use common::{Folder, Run, TOOL};
use plain::file::{file, salvaged, seal};
use plain::Rng;
use std::fs::{self, File};
use std::os::unix::fs::symlink;
use std::process::Command;

const COMMENT: &str = "# unknown stretches: first place, count of samples\n";

/// Five blocks behind block 0, the last of 200 samples.
fn good() -> Vec<u8> {
    file(2, Some(7), &Rng(51).samples(1200, 2, 5))
}

/// Changes a byte of each of these blocks.
fn damaged(blocks: &[usize]) -> Vec<u8> {
    let mut bad = good();
    blocks.iter().for_each(|number| bad[512 * number + 100] ^= 4);
    bad
}

/// Salvages a file, which must give these stretches, each with its share, and this total.
fn salvage(folder: &Folder, bad: &[u8], stretches: &[(usize, usize, &str)], total: &str) {
    folder.write("bad.shelf", bad);
    let run = folder.run("salvage bad.shelf -o good.shelf");
    holds(folder, run, bad, stretches, total);
}

/// Holds a run, and what it saved, against the plain model.
fn holds(folder: &Folder, run: Run, bad: &[u8], told: &[(usize, usize, &str)], total: &str) {
    let lines = told.iter().map(|(first, count, share)| format!("{first} {count} {share}\n"));
    let out = lines.collect::<String>() + &format!("stretches {} {total}\n", told.len());
    let status = i32::from(!told.is_empty());
    assert_eq!(run, Run { status, out, err: String::new() });

    let (unit, mark, known) = salvaged(bad).unwrap();
    let samples: Vec<_> = known.iter().map(|sample| sample.unwrap_or(0)).collect();
    assert_eq!(folder.read("good.shelf"), file(unit, mark, &samples));
    let unknown =
        |place| told.iter().any(|(first, count, _)| (*first..first + count).contains(&place));
    assert!((0..known.len()).all(|place| known[place].is_none() == unknown(place)));
    let list: String = told.iter().map(|(first, count, _)| format!("{first} {count}\n")).collect();
    assert_eq!(folder.read("good.shelf.stretches"), (COMMENT.to_string() + &list).as_bytes());
    assert_eq!(folder.run("check good.shelf").yes(), "whole\n");
}

#[test]
fn stretches_are_told_and_saved() {
    let folder = Folder::new("salvage-told");
    let none = "replaced 0 share 0.0000%";
    salvage(&folder, &good(), &[], none);
    salvage(&folder, &damaged(&[2]), &[(250, 250, "20.8333%")], "replaced 250 share 20.8333%");
    salvage(
        &folder,
        &damaged(&[1, 3, 4]),
        &[(0, 250, "20.8333%"), (500, 500, "41.6667%")],
        "replaced 750 share 62.5000%",
    );
    salvage(&folder, &damaged(&[5]), &[(1000, 200, "16.6667%")], "replaced 200 share 16.6667%");
    let all = (&[(0, 1200, "100.0000%")], "replaced 1200 share 100.0000%");
    salvage(&folder, &damaged(&[1, 2, 3, 4, 5]), all.0, all.1);
    salvage(&folder, &good()[..512], all.0, all.1);
    // A list that is there is replaced, also by one without stretches.
    salvage(&folder, &good(), &[], none);
    assert_eq!(folder.names(), ["bad.shelf", "good.shelf", "good.shelf.stretches"]);
}

#[test]
fn files_cut_and_lengthened() {
    let folder = Folder::new("salvage-cut");
    let last = (&[(1000, 200, "16.6667%")], "replaced 200 share 16.6667%");
    salvage(&folder, &good()[..5 * 512], last.0, last.1);
    salvage(&folder, &good()[..6 * 512 - 1], last.0, last.1);
    let long = [good(), vec![1; 700]].concat();
    salvage(&folder, &long, &[], "replaced 0 share 0.0000%");
    salvage(&folder, &[damaged(&[5]), good()].concat(), last.0, last.1);
    salvage(&folder, &file(1, None, &[]), &[], "replaced 0 share 0.0000%");
}

#[test]
fn standard_input_may_be_a_pipe_or_a_file() {
    let folder = Folder::new("salvage-input");
    let (bad, stretch) = (damaged(&[2]), [(250, 250, "20.8333%")]);
    let total = "replaced 250 share 20.8333%";
    let run = folder.run_on("salvage - -o good.shelf", &bad);
    holds(&folder, run, &bad, &stretch, total);

    folder.write("bad.shelf", &bad);
    let input = File::open(folder.0.join("bad.shelf")).unwrap();
    let output =
        folder.command(&["salvage", "-o", "good.shelf", "-"]).stdin(input).output().unwrap();
    let run = Run {
        status: output.status.code().unwrap(),
        out: String::from_utf8(output.stdout).unwrap(),
        err: String::from_utf8(output.stderr).unwrap(),
    };
    holds(&folder, run, &bad, &stretch, total);
}

#[test]
fn without_block_0_nothing_is_saved() {
    let folder = Folder::new("salvage-block-0");
    folder.write("good.shelf", b"old");
    folder.write("good.shelf.stretches", b"old list");
    type Damage = fn(&mut Vec<u8>);
    let cases: [(&str, Damage); 5] = [
        ("the file ends after 0 of its 512 bytes", |f| f.clear()),
        ("its check is 2751, and its bytes make 2755", |f| f[4] ^= 1),
        ("its payload count is 500, and 18 is due", |f| drop(f.drain(..512))),
        ("its unit is 3, and a unit is 1 or 2", |f| {
            f[12] = 3;
            seal(&mut f[..512]);
        }),
        ("its mark is 263, above its len 176", |f| {
            (f[15], f[23]) = (0, 1);
            seal(&mut f[..512]);
        }),
    ];
    let refused = "refused, 17: no capture's file begins like this: block 0:";
    for (what, damage) in cases {
        let mut bad = good();
        damage(&mut bad);
        folder.write("bad.shelf", &bad);
        let said = folder.run("salvage bad.shelf -o good.shelf").bad();
        assert_eq!(said, format!("logic-capture salvage: bad.shelf: {refused} {what}"));
        let said = folder.run_on("salvage - -o good.shelf", &bad).bad();
        assert_eq!(said, format!("logic-capture salvage: standard input: {refused} {what}"));
    }
    // What cannot be read at its beginning.
    let said = folder.run("salvage /proc/self/mem -o good.shelf").bad();
    let what = format!("{refused} Input/output error (os error 5)");
    assert_eq!(said, format!("logic-capture salvage: /proc/self/mem: {what}"));

    assert_eq!(folder.read("good.shelf"), b"old");
    assert_eq!(folder.read("good.shelf.stretches"), b"old list");
    assert_eq!(folder.names(), ["bad.shelf", "good.shelf", "good.shelf.stretches"]);
}

#[test]
fn a_write_that_fails_leaves_both_old_files() {
    let folder = Folder::new("salvage-fails");
    let long = file(1, None, &Rng(52).samples(100_000, 1, 5));
    folder.write("bad.shelf", &long[..50_000]);
    folder.write("good.shelf", b"old");
    folder.write("good.shelf.stretches", b"old list");
    // No file may be longer than some kilobytes, as on a disk that is full.
    let shell = format!("trap '' XFSZ; ulimit -f 8; exec {TOOL} salvage bad.shelf -o good.shelf");
    let run = Command::new("sh").args(["-c", &shell]).current_dir(&folder.0).output().unwrap();
    let said = "logic-capture salvage: good.shelf: File too large (os error 27)\n";
    assert_eq!((run.status.code(), run.stdout.as_slice()), (Some(2), &b""[..]));
    assert_eq!(String::from_utf8_lossy(&run.stderr), said);
    assert_eq!(folder.read("good.shelf"), b"old");
    assert_eq!(folder.read("good.shelf.stretches"), b"old list");

    // A list that cannot be written keeps the file from being written.
    fs::remove_file(folder.0.join("good.shelf.stretches")).unwrap();
    fs::create_dir(folder.0.join("good.shelf.stretches")).unwrap();
    let said = folder.run("salvage bad.shelf -o good.shelf").bad();
    let what = "good.shelf.stretches: Is a directory (os error 21)";
    assert_eq!(said, format!("logic-capture salvage: {what}"));
    assert_eq!(folder.read("good.shelf"), b"old");
    assert_eq!(folder.names(), ["bad.shelf", "good.shelf", "good.shelf.stretches"]);
}

#[test]
fn a_file_may_be_salvaged_in_its_place() {
    let folder = Folder::new("salvage-in-place");
    let bad = damaged(&[2]);
    folder.write("kept", &bad);
    symlink("kept", folder.0.join("good.shelf")).unwrap();
    let run = folder.run("salvage good.shelf -o good.shelf");
    let total = "replaced 250 share 20.8333%";
    holds(&folder, run, &bad, &[(250, 250, "20.8333%")], total);
    // A link stays one.
    assert!(folder.0.join("good.shelf").is_symlink());
    assert_eq!(folder.names(), ["good.shelf", "good.shelf.stretches", "kept"]);
}
