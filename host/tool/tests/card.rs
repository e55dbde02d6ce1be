//! Cards: what is known of a capture beside its samples, and what answers tell of unknown ones.

mod common;
#[path = "../../capture/tests/plain/mod.rs"]
mod plain;

use common::{Folder, Run};
use plain::file::file;

/// Twelve samples in which an encoder on lines 0 and 1 turns, with the mark at 2, and a card that a person began:
/// samples 4 and 5 are unknown.
fn begun(test: &str) -> Folder {
    let folder = Folder::new(test);
    folder.write("a.shelf", &file(1, Some(2), &[0, 0, 1, 1, 0, 0, 2, 2, 0, 0, 1, 1]));
    folder.write(
        "a.shelf.card",
        b"# frozen log\nrate 1000\nline 1 B\nencoder log 0 1 4\nunknown 4 2\n",
    );
    folder
}

/// A run that told of unknown samples.
fn unknown(out: &str) -> Run {
    Run { status: 3, out: out.into(), err: String::new() }
}

#[test]
fn a_card_is_tied_and_read() {
    let folder = begun("card-tied");
    let said = folder.run("next a.shelf").bad();
    let what = "a.shelf.card: no 'unit': it does not say which file it belongs to";
    assert!(said.starts_with(&format!("logic-capture next: {what}")), "{said}");

    let run = folder.run("card --write --name 0=A a.shelf");
    assert_eq!((run.status, run.out.as_bytes()), (3, &folder.read("a.shelf.card")[..]));
    let (tie, facts) = run.out.split_once("rate").unwrap();
    assert!(tie.starts_with("# frozen log\nunit 1\nlength 12\nmark 2\nsum 0x"), "{tie}");
    let expected = " 1000\nline 0 A\nline 1 B\nencoder log 0 1 4\ntotal log 1 skipped=0 unknown=2\nunknown 4 2\n";
    assert_eq!(facts, expected);

    let info = "format shelf\nunit 1\nsamples 12\nmark 2\nrate 1000\nseconds 0.012\nchanging 0 A,1 B\nunknown=2\n";
    assert_eq!(folder.run("info a.shelf"), unknown(info));
    assert_eq!(folder.run("info --no-card a.shelf").status, 0);
    assert_eq!(folder.run("next --lines B --from 6ms a.shelf").yes(), "8\n");
    let turned = "position 1 forward 3 backward 2 skipped 0 turns 0.25 unknown=2\n";
    assert_eq!(folder.run("encoder a.shelf"), unknown(turned));
    assert_eq!(folder.run("encoder --a A --b B --no-card a.shelf").status, 2);

    // The file of another capture.
    folder.write("a.shelf", &file(1, Some(2), &[0, 0, 1, 1, 0, 0, 2, 2, 0, 0, 1, 0]));
    let said = folder.run("check a.shelf").bad();
    assert!(said.ends_with(": it is the card of another file"), "{said}");
    assert_eq!(folder.run("check --no-card a.shelf").yes(), "whole\n");
}

#[test]
fn searches_tell_what_is_unknown() {
    let folder = begun("card-searches");
    folder.run("card --write a.shelf");
    let ask = |line: &str| folder.run(&format!("{line} a.shelf"));
    assert_eq!(ask("next").yes(), "2\n");
    // Of what is stored there is a change at 4, and none of it was measured.
    assert_eq!(ask("next --from mark"), unknown("8 unknown=2\n"));
    assert_eq!(ask("next --from mark --certain"), unknown("8 unknown=2\n"));
    assert_eq!(ask("next --from mark --possible"), unknown("4 unknown=1\n"));
    assert_eq!(ask("next --from mark --stored"), unknown("4 unknown=1\n"));
    assert_eq!(ask("prev --from 7"), unknown("2 unknown=2\n"));
    assert_eq!(ask("next --from 10"), Run { status: 1, out: String::new(), err: String::new() });
    let changes = "4 ? ?\n5 ? ?\n6 2 ?\n8 0 2\nunknown=2\n";
    assert_eq!(ask("changes --possible --from 3 --to 9"), unknown(changes));
    assert_eq!(
        ask("changes --times --from 9"),
        Run { status: 0, out: "0.01s 1 1\n".into(), err: String::new() }
    );
    assert_eq!(ask("samples --from 3 --to 7"), unknown("3 1\n4 ?\n5 ?\n6 2\nunknown=2\n"));
    let said = ask("next --read").bad();
    assert_eq!(said, "logic-capture next: samples are unknown: --read goes with --stored");

    // A list is added to the card's.
    folder.write("list", b"8 1\n");
    assert_eq!(ask("next --from mark --stretches list --certain"), unknown("10 unknown=2\n"));

    // A mill is told that some are unknown, wherever it looks.
    assert_eq!(ask("next --grant 1"), unknown("4 unknown\n"));
    assert_eq!(ask("samples --grant 0 --from -1 --to 1"), unknown("-1 0\n0 1\nunknown\n"));
    let said = ask("next --grant 1 --certain").bad();
    assert_eq!(said, "logic-capture next: --certain goes with --stretches");
}

#[test]
fn a_card_goes_with_what_is_salvaged() {
    let folder = Folder::new("card-salvaged");
    let mut bad = file(1, None, &[1; 1200]);
    folder.write("bad.shelf", &bad);
    folder.write("list", b"7 3\n");
    folder.run("card --name 0=drive --encoder log=0,1,4 --stretches list --write bad.shelf");
    bad[512 + 40] ^= 1;
    folder.write("bad.shelf", &bad);
    let run = folder.run("salvage bad.shelf -o good.shelf");
    let told = "0 500 41.6667%\nstretches 1 replaced 500 share 41.6667%\n";
    assert_eq!(run, Run { status: 1, out: told.into(), err: String::new() });
    let card = String::from_utf8(folder.read("good.shelf.card")).unwrap();
    assert!(card.ends_with("line 0 drive\nencoder log 0 1 4\nunknown 0 500\n"), "{card}");
    assert_eq!(folder.run("next good.shelf"), unknown("none unknown=500\n"));

    // What was unknown before is unknown still.
    let run = folder.run("salvage good.shelf -o again.shelf");
    let told = "0 500 41.6667%\nstretches 1 replaced 0 share 0.0000% unknown=500\n";
    assert_eq!(run, unknown(told));
    assert_eq!(folder.read("again.shelf.stretches"), folder.read("good.shelf.stretches"));
    let sound = "sound unit=1 samples=1200 mark=- 0,2=1 log=1 skipped=0 unknown=500";
    let listed = folder.run("shelf --encoder 0,2 .").out;
    assert!(listed.contains(&format!("\ngood.shelf {sound}\n")), "{listed}");
}
