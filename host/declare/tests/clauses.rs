//! What is claimed of the exports is claimed of the functions of `logic_core`. Each export of `logic_core_c` has one of them
//! under it: the same module, name, parameters and clauses, word by word, and a body that is one call of it.

use std::collections::BTreeMap;
use std::fs;
use std::path::Path;

/// Of a function: all from its name to its body, and the body, each on one line.
type Function = (String, String);

fn one_line(text: &str) -> String {
    text.split_whitespace().collect::<Vec<_>>().join(" ")
}

/// The public functions of a crate by module and name. Its functions begin and end at a line's first column.
fn functions(name: &str) -> BTreeMap<String, Function> {
    let folder = Path::new(env!("CARGO_MANIFEST_DIR")).join("../../crates").join(name).join("src");
    let mut all = BTreeMap::new();
    for file in fs::read_dir(folder).unwrap() {
        let path = file.unwrap().path();
        let module = path.file_stem().unwrap().to_str().unwrap().to_string();
        let text = fs::read_to_string(&path).unwrap().replace("pub extern \"C\" fn ", "pub fn ");
        for part in text.split("\npub fn ").skip(1) {
            let part = &part[..part.find("\n}\n").unwrap()];
            let (head, body) = part.split_once("\n{\n").unwrap();
            let named = &head[..head.find(['(', '<']).unwrap()];
            let place = format!("{module}::{named}");
            assert!(all.insert(place, (one_line(head), one_line(body))).is_none(), "{named} twice");
        }
    }
    all
}

#[test]
fn each_export_has_the_clauses_of_the_function_that_it_calls() {
    let (proved, exports) = (functions("logic_core"), functions("logic_core_c"));
    assert_eq!(exports.len(), 34);
    let names = |all: &BTreeMap<String, Function>| all.keys().cloned().collect::<Vec<_>>();
    assert_eq!(names(&proved), names(&exports));
    for (place, (head, body)) in &exports {
        assert_eq!(head, &proved[place].0);
        let called = format!("logic_core::{}(", place.trim_start_matches("lib::"));
        let rest = body.strip_prefix(&called).unwrap_or_else(|| panic!("{place}: {body}"));
        let given: Vec<_> = rest
            .trim_end_matches([')', ';'])
            .split(',')
            .map(str::trim)
            .filter(|it| !it.is_empty())
            .collect();
        let parameters = &head[head.find('(').unwrap() + 1..head.find(')').unwrap()];
        let declared: Vec<_> = parameters
            .split(", ")
            .filter_map(|it| it.split_once(':'))
            .map(|it| it.0.trim())
            .collect();
        assert_eq!(given, declared, "{place}");
    }
}
