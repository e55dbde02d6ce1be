//! The header, compiled as C and as C++: each declaration in it is the export's with every parameter spelled out, LC_LEND
//! gives what LC_MEMORY takes, and the archive has each export.

use declare::{c, Declarations};
use std::path::{Path, PathBuf};
use std::process::{Command, Stdio};
use std::{env, fs};

fn repository() -> PathBuf {
    Path::new(env!("CARGO_MANIFEST_DIR")).join("../..")
}

fn named(variable: &str, otherwise: &str) -> String {
    env::var(variable).ok().filter(|name| !name.is_empty()).unwrap_or(otherwise.into())
}

/// A program that declares each export again, which no compiler takes with another type, and links each.
fn program(declarations: &Declarations) -> String {
    let exports = &declarations.exports;
    let again: Vec<_> = exports.iter().map(c::spelled_out).collect();
    let links: Vec<_> = exports.iter().map(|export| format!("(call){}", export.name)).collect();
    format!(
        r#"#include "logic_core.h"
#include "logic_core.h"
#ifdef __cplusplus
extern "C" {{
#endif
{}
#ifdef __cplusplus
}}
#endif
typedef void (*call)(void);
static const call calls[] = {{{}}};

static bool reads(lc_memory m, LC_CONST_MEMORY) {{
    return samples == m.samples && samples_len == m.sizes[0] && l1 == m.level[0] && l1_len == m.sizes[1] &&
           l2 == m.level[1] && l2_len == m.sizes[2] && l3 == m.level[2] && l3_len == m.sizes[3] && l4 == m.level[3] &&
           l4_len == m.sizes[4];
}}
static bool writes(lc_memory m, LC_MEMORY) {{
    *samples = 1;
    *l4 = 1;
    return reads(m, samples, samples_len, l1, l1_len, l2, l2_len, l3, l3_len, l4, l4_len);
}}
int main(void) {{
    static uint8_t bytes[1];
    static uint16_t numbers[4];
    lc_memory m = {{bytes, {{numbers, numbers + 1, numbers + 2, numbers + 3}}, {{5, 6, 7, 8, 9}}}};
    for (size_t i = 0; i < sizeof calls / sizeof *calls; i++)
        if (!calls[i])
            return 2;
    return reads(m, LC_LEND(m)) && writes(m, LC_LEND(m)) ? 0 : 1;
}}
"#,
        again.join("\n"),
        links.join(", ")
    )
}

/// Compiles the program against a header; what the compiler says where it does not take it.
fn compiled(name: &str, header: &str, compiler: &str, options: &[&str]) -> Result<PathBuf, String> {
    let folder = Path::new(env!("CARGO_TARGET_TMPDIR")).join(name);
    fs::create_dir_all(&folder).unwrap();
    fs::write(folder.join("logic_core.h"), header).unwrap();
    let declarations = Declarations::read(&repository()).unwrap();
    fs::write(folder.join("program.c"), program(&declarations)).unwrap();
    let library = repository().join(named("LOGIC_CORE_LIB", "target/staticlib"));
    let output = Command::new(compiler)
        .current_dir(&folder)
        .args(["-Wall", "-Wextra", "-Werror", "-pedantic"])
        .args(options)
        .args(["program.c", "-x", "none", "-o", "program"])
        .arg(library.join("liblogic_core.a"))
        .output()
        .unwrap_or_else(|error| panic!("{compiler}: {error}"));
    let said = String::from_utf8_lossy(&output.stderr).into_owned();
    output.status.success().then_some(folder.join("program")).ok_or(said)
}

fn header() -> String {
    Declarations::read(&repository()).unwrap().header
}

fn is_taken(name: &str, compiler: &str, options: &[&str]) {
    let program =
        compiled(name, &header(), compiler, options).unwrap_or_else(|said| panic!("{said}"));
    assert!(Command::new(program).status().unwrap().success(), "LC_LEND and what takes it differ");
}

#[test]
fn as_c() {
    is_taken("c", &named("CC", "cc"), &["-std=c99", "-x", "c"]);
}

#[test]
fn as_cpp() {
    let compiler = named("CXX", "c++");
    if Command::new(&compiler).arg("--version").stdout(Stdio::null()).status().is_err() {
        eprintln!("no {compiler}: the header is not compiled as C++");
        return;
    }
    is_taken("c++", &compiler, &["-std=c++11", "-x", "c++"]);
}

#[test]
fn another_type_is_not_taken() {
    let header = header();
    let (before, reads) = header.split_once("#define LC_CONST_MEMORY").unwrap();
    let header = format!("{before}#define LC_CONST_MEMORY{}", reads.replacen("const ", "", 1));
    let said =
        compiled("wrong", &header, &named("CC", "cc"), &["-std=c99", "-x", "c"]).unwrap_err();
    assert!(said.contains("conflicting types"), "{said}");
}
