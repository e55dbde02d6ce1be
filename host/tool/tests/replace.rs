//! A file is written beside the one that it replaces: whatever fails, the old one is as it was.

mod common;
#[path = "../../capture/tests/plain/mod.rs"]
mod plain;

use common::{Folder, TOOL};
use plain::file::file;
use std::fs::{self, Permissions};
use std::os::unix::fs::{symlink, MetadataExt, PermissionsExt};
use std::os::unix::process::ExitStatusExt;
use std::process::{Command, Output};

const OLD: &[u8] = b"what was there before";

/// A folder with an input and an old file.
fn folder(test: &str) -> Folder {
    let folder = Folder::new(test);
    folder.write("in", &[1; 100_000]);
    folder.write("a.shelf", OLD);
    folder
}

/// Runs the tool where no file may be longer than some kilobytes, as on a disk that is full.
fn limited(folder: &Folder, before: &str, line: &str) -> Output {
    let shell = format!("{before} ulimit -f 8; exec {TOOL} {line}");
    Command::new("sh").args(["-c", &shell]).current_dir(&folder.0).output().unwrap()
}

#[test]
fn a_write_that_fails_leaves_the_old_file() {
    let folder = folder("replace-fails");
    folder.write("a.svg", OLD);
    folder.write("busy", &[0, 1].repeat(50_000));
    for (line, name) in [
        ("record --unit 1 -o a.shelf in", "a.shelf"),
        ("record --unit 1 -o b.shelf in", "b.shelf"),
        ("demo -o a.shelf", "a.shelf"),
        ("demo --raw a.shelf", "a.shelf"),
        ("render --unit 1 --width 65535 --svg a.svg busy", "a.svg"),
    ] {
        let run = limited(&folder, "trap '' XFSZ;", line);
        let command = line.split(' ').next().unwrap();
        let said = format!("logic-capture {command}: {name}: File too large (os error 27)\n");
        assert_eq!((run.status.code(), run.stdout.as_slice()), (Some(2), &b""[..]), "{line}");
        assert_eq!(String::from_utf8_lossy(&run.stderr), said);
        assert_eq!(folder.names(), ["a.shelf", "a.svg", "busy", "in"], "{line}");
        assert_eq!(folder.read("a.shelf"), OLD);
        assert_eq!(folder.read("a.svg"), OLD);
    }
}

#[test]
fn a_crash_while_it_is_written_leaves_the_old_file() {
    let folder = folder("replace-crash");
    let run = limited(&folder, "ulimit -c 0;", "record --unit 1 -o a.shelf in");
    assert!(run.status.signal().is_some(), "{run:?}");
    assert_eq!(folder.read("a.shelf"), OLD);
    // What is left beside it is in nobody's way.
    assert_eq!(folder.names().len(), 3);
    folder.run("record --unit 1 -o a.shelf in").yes();
    assert_eq!(folder.read("a.shelf"), file(1, None, &[1; 100_000]));
    assert_eq!(folder.run("shelf .").yes(), "a.shelf sound unit=1 samples=100000 mark=-\n");
}

#[test]
fn a_file_is_replaced_whole() {
    let folder = folder("replace-whole");
    let path = folder.0.join("a.shelf");
    fs::set_permissions(&path, Permissions::from_mode(0o640)).unwrap();
    let before = fs::metadata(&path).unwrap();
    // Who has the old one open goes on reading it.
    let open = fs::File::open(&path).unwrap();
    folder.run("record --unit 1 -o a.shelf in").yes();
    assert_eq!(std::io::read_to_string(open).unwrap().as_bytes(), OLD);
    let after = fs::metadata(&path).unwrap();
    assert_ne!(before.ino(), after.ino());
    assert_eq!(after.mode() & 0o777, 0o640);
    assert_eq!(folder.read("a.shelf"), file(1, None, &[1; 100_000]));
    assert_eq!(folder.names(), ["a.shelf", "in"]);
}

#[test]
fn a_link_stays_one() {
    let folder = folder("replace-link");
    fs::create_dir(folder.0.join("kept")).unwrap();
    folder.write("kept/old.shelf", OLD);
    symlink("kept/old.shelf", folder.0.join("link.shelf")).unwrap();
    folder.run("record --unit 1 -o link.shelf in").yes();
    assert!(folder.0.join("link.shelf").is_symlink());
    assert_eq!(folder.read("kept/old.shelf"), file(1, None, &[1; 100_000]));
    assert_eq!(fs::read_dir(folder.0.join("kept")).unwrap().count(), 1);
}

#[test]
fn what_is_no_plain_file_is_written_itself() {
    let folder = folder("replace-device");
    folder.run("record --unit 1 -o /dev/null in").yes();
    let full = folder.run("record --unit 1 -o /dev/full in").bad();
    assert_eq!(full, "logic-capture record: /dev/full: No space left on device (os error 28)");
    let shell =
        format!("mkfifo pipe && (cat pipe > got & {TOOL} record --unit 1 -o pipe in && wait)");
    let run = Command::new("sh").args(["-c", &shell]).current_dir(&folder.0).output().unwrap();
    assert!(run.status.success(), "{run:?}");
    assert_eq!(folder.read("got"), file(1, None, &[1; 100_000]));
    assert_eq!(folder.names(), ["a.shelf", "got", "in", "pipe"]);
}
