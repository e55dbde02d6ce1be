//! `--help` of the tool and of each command.

mod common;

use common::Folder;

#[test]
fn each_command_has_help() {
    let folder = Folder::new("help");
    let overview = folder.run("--help").yes();
    for also in ["help", "-h"] {
        assert_eq!(folder.run(also).yes(), overview);
    }
    let names = overview
        .lines()
        .skip_while(|line| !line.starts_with("  "))
        .take_while(|line| !line.is_empty());
    let names: Vec<&str> = names.map(|line| line.split_whitespace().next().unwrap()).collect();
    let expected = [
        "demo", "record", "info", "shelf", "salvage", "next", "prev", "changes", "density",
        "burst", "bursts", "encoder", "summary", "samples", "render", "check",
    ];
    assert_eq!(names, expected);
    for name in names {
        let help = folder.run(&format!("{name} --help")).yes();
        assert!(help.contains(&format!("  logic-capture {name} ")), "{help}");
        for also in [format!("help {name}"), format!("{name} -h"), format!("{name} nowhere --help")]
        {
            assert_eq!(folder.run(&also).yes(), help);
        }
    }
}

#[test]
fn the_version() {
    let version = format!("logic-capture {}\n", env!("CARGO_PKG_VERSION"));
    assert_eq!(Folder::new("version").run("--version").yes(), version);
}
