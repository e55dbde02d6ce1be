//! Finds the source and writes the crate's modules, each a path to a file of it.
//! The script `source` looks in the same places.

use std::path::Path;
use std::{env, fs};

fn main() {
    println!("cargo::rerun-if-env-changed=EDGEWISE_SRC");
    let repository = Path::new(env!("CARGO_MANIFEST_DIR")).join("../..");
    let named = env::var_os("EDGEWISE_SRC").filter(|name| !name.is_empty());
    let folder = repository.join(named.unwrap_or("../shared/docs/src".into()));

    let mut modules = String::new();
    for name in ["capture", "trigger"] {
        let file = folder.join(format!("crates/logic-core/src/{name}.rs"));
        println!("cargo::rerun-if-changed={}", file.display());
        match file.canonicalize() {
            Ok(file) => modules += &format!("#[path = {file:?}]\npub mod {name};\n"),
            Err(_) => {
                println!("cargo::error=no source: EDGEWISE_SRC must name the folder that holds crates/logic-core/src");
                return;
            }
        }
    }
    let out = env::var("OUT_DIR").expect("cargo sets OUT_DIR");
    fs::write(Path::new(&out).join("modules.rs"), modules).expect("OUT_DIR can be written");
}
