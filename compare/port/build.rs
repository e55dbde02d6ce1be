//! Links the port's static library where there is one; without it the crate builds all the same.

use std::env;
use std::path::Path;

fn main() {
    println!("cargo::rustc-check-cfg=cfg(linked)");
    println!("cargo::rerun-if-env-changed=LOGIC_CORE_LIB");
    let repository = Path::new(env!("CARGO_MANIFEST_DIR")).join("../..");
    let named = env::var_os("LOGIC_CORE_LIB").filter(|name| !name.is_empty());
    let folder = repository.join(named.unwrap_or("target/staticlib".into()));
    let archive = folder.join("liblogic_core.a");
    println!("cargo::rerun-if-changed={}", archive.display());
    if archive.is_file() {
        println!("cargo::rustc-cfg=linked");
        println!("cargo::rustc-link-search=native={}", folder.display());
        println!("cargo::rustc-link-lib=static=logic_core");
    }
}
