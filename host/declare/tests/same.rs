//! The declarations in include/ are those that the exports make, the archive has these exports and no others, and the Rust of
//! host/ and compare/ has no declarations of its own.

use declare::Declarations;
use std::collections::BTreeSet;
use std::path::{Path, PathBuf};
use std::{env, fs};

fn repository() -> PathBuf {
    Path::new(env!("CARGO_MANIFEST_DIR")).join("../..")
}

fn read() -> Declarations {
    Declarations::read(&repository()).unwrap_or_else(|lines| panic!("{}", lines.join("\n")))
}

#[test]
fn the_declarations_are_the_exports() {
    let lines = read().differences();
    let again = "make them anew: cargo run -q -p declare, in host/";
    assert!(lines.is_empty(), "\n{}\n{again}", lines.join("\n"));
}

/// The names in an archive's index, which comes first in it: a count, as many places, then the names, a 0 behind each.
fn index(archive: &[u8]) -> Vec<String> {
    let (magic, rest) = archive.split_at(8);
    assert_eq!((magic, &rest[..2]), (&b"!<arch>\n"[..], &b"/ "[..]), "an archive with its index");
    let header = std::str::from_utf8(&rest[..60]).unwrap();
    let index = &rest[60..][..header[48..58].trim_end().parse().unwrap()];
    let (count, places) = index.split_at(4);
    let count = u32::from_be_bytes(count.try_into().unwrap()) as usize;
    let names = places[4 * count..].split(|&byte| byte == 0).take(count);
    names.map(|name| String::from_utf8(name.to_vec()).unwrap()).collect()
}

#[test]
fn the_archive_has_the_exports() {
    let named = env::var("LOGIC_CORE_LIB").ok().filter(|name| !name.is_empty());
    let folder = repository().join(named.unwrap_or("target/staticlib".into()));
    let archive = fs::read(folder.join("liblogic_core.a")).expect("tools/staticlib makes it");
    let index = index(&archive);
    let has: BTreeSet<_> = index.into_iter().filter(|name| name.starts_with("lc_")).collect();
    let exports: BTreeSet<_> = read().exports.into_iter().map(|export| export.name).collect();
    let lacks = exports.difference(&has).map(|name| format!("it lacks {name}"));
    let extra =
        has.difference(&exports).map(|name| format!("it has {name}, no export of the source"));
    let lines: Vec<_> = lacks.chain(extra).collect();
    assert!(lines.is_empty(), "\nliblogic_core.a: {}", lines.join("\nliblogic_core.a: "));
}

/// The Rust files in a folder and the folders in it, but for what cargo builds.
fn rust_files(folder: &Path) -> Vec<PathBuf> {
    let entries = fs::read_dir(folder).unwrap().map(|entry| entry.unwrap().path());
    let files = entries.flat_map(|path| match path.is_dir() {
        true if path.ends_with("target") => vec![],
        true => rust_files(&path),
        false => vec![path],
    });
    files.filter(|path| path.extension().is_some_and(|end| end == "rs")).collect()
}

#[test]
fn nothing_is_declared_by_hand() {
    let folders = ["host/capture", "host/tool", "compare"].map(|name| repository().join(name));
    let files: Vec<_> = folders.iter().flat_map(|folder| rust_files(folder)).collect();
    assert!(files.iter().any(|path| path.ends_with("capture/src/boundary.rs")));
    for path in files {
        let text = fs::read_to_string(&path).unwrap();
        let hand = text.lines().find(|line| line.contains("fn lc_"));
        assert_eq!(
            hand,
            None,
            "{}: include!(\"..include/logic_core.rs\") declares it",
            path.display()
        );
    }
}
