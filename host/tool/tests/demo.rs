//! The demonstration, and what it saves.

mod common;

use common::Folder;

#[test]
fn it_shows_and_saves_a_scanner_frame() {
    let folder = Folder::new("demo");
    let shown = folder.run("demo -o frame.shelf --raw frame.bin").yes();
    assert!(shown.contains("\nsamples 1000000\nmark 250000\n"), "{shown}");
    assert!(shown.contains("14 turner drive ───────────────┘\n"), "{shown}");
    assert!(shown.contains("\nThe log came home: its position is 0.\n"), "{shown}");
    let scan = "A plain scan of all 1000000 samples finds the same places and the same steps.\n";
    assert!(shown.ends_with(scan), "{shown}");
    let ascii = folder.run("demo --ascii").yes();
    assert!(
        ascii.is_ascii() && ascii.contains("14 turner drive _______________/------"),
        "{ascii}"
    );

    // The commands find what it says.
    assert_eq!(folder.run("next --lines 11,12 --from mark frame.shelf").yes(), "251644\n");
    assert_eq!(folder.run("changes --lines 11,12 --total frame.shelf").yes(), "32000\n");
    let turned = "position 0 forward 16000 backward 16000 skipped 0 turns 0\n";
    let line = "encoder --a 11 --b 12 --steps-per-turn 400 frame.shelf";
    assert_eq!(folder.run(line).yes(), turned);
    assert_eq!(folder.run("check frame.shelf").yes(), "whole\n");

    // The frame recorded anew is the same capture.
    folder.run("record --unit 2 --rate 10k --trigger 14=rising --limit 1000000 --pre 0.25 -o again.shelf frame.bin").yes();
    assert_eq!(folder.read("again.shelf"), folder.read("frame.shelf"));
}
