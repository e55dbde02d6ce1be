//! Links liblogic_core.a of target/staticlib, or of the folder that LOGIC_CORE_LIB names.
//! A relative name starts at the repository's root.

use std::env;
use std::path::Path;

fn main() {
    println!("cargo::rerun-if-env-changed=LOGIC_CORE_LIB");
    let repository = Path::new(env!("CARGO_MANIFEST_DIR")).join("../..");
    let named = env::var("LOGIC_CORE_LIB").ok().filter(|name| !name.is_empty());
    let named = named.unwrap_or("target/staticlib".into());
    let folder = repository.join(&named);
    let archive = folder.join("liblogic_core.a");
    println!("cargo::rerun-if-changed={}", archive.display());
    if !archive.is_file() {
        println!("cargo::error=no {named}/liblogic_core.a: make it with `tools/staticlib`");
        return;
    }
    println!("cargo::rustc-link-search=native={}", folder.display());
    println!("cargo::rustc-link-lib=static=logic_core");
}
