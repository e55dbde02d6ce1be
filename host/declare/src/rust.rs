//! Declarations in Rust.

use crate::difference::{made, Item};
use crate::export::{Export, Kind, Number, Parameter};
use crate::lines;
use crate::names::{self, Names};

const COLUMNS: usize = 100;

/// A parameter as Rust declares it; a slice is two.
fn plain(parameter: &Parameter) -> String {
    let Parameter { name, kind, of: Number { rust, .. } } = parameter;
    let to = |writes: bool| if writes { "*mut" } else { "*const" };
    match *kind {
        Kind::Value => format!("{name}: {rust}"),
        Kind::One { writes } => format!("{name}: {} {rust}", to(writes)),
        Kind::Array { writes, count } => format!("{name}: {} [{rust}; {count}]", to(writes)),
        Kind::Slice { writes } => format!("{name}: {} {rust}, {name}_len: usize", to(writes)),
    }
}

fn declaration(export: &Export) -> String {
    let parts: Vec<_> = export.parameters.iter().map(plain).collect();
    let result = export.result.map_or("()", |number| number.rust);
    let begin = format!("fn {}(", export.name);
    let line = format!("{begin}{}) -> {result};", parts.join(", "));
    if 4 + line.len() <= COLUMNS {
        return line;
    }
    format!("{begin}\n        {}\n    ) -> {result};", lines::filled(&parts, 8, COLUMNS))
}

fn declarations(exports: &[Export]) -> impl Iterator<Item = Item> + '_ {
    exports.iter().map(|export| made(&export.name, declaration(export), &export.place))
}

/// What the file must have.
pub fn items(exports: &[Export], names: &[Names]) -> Vec<Item> {
    names.iter().map(names::in_rust).chain(declarations(exports)).collect()
}

/// The file.
pub fn file(exports: &[Export], names: &[Names]) -> String {
    let mut text = String::from(
        "// The exports of logic_core, for Rust; logic_core.h says what each does. Made by host/declare, not to be edited.
// Who includes this defines `exports!` for it.

",
    );
    for names in names {
        text += &format!("#[allow(dead_code)]\n{}\n\n", names::in_rust(names).text);
    }
    text += "exports! {\n";
    for item in declarations(exports) {
        text += &format!("    {}\n", item.text);
    }
    text + "}\n"
}

/// What the file has.
pub fn find(text: &str) -> Vec<Item> {
    let mut found = Vec::new();
    for (at, start) in text.match_indices("pub mod ") {
        let end = text[at..].find('}').map_or(text.len(), |length| at + length + 1);
        found.push(Item::standing(lines::word(&text[at + start.len()..]), text, at..end));
    }
    for (at, _) in text.match_indices("fn lc_") {
        let result = text[at..].find("->").map_or(text.len(), |length| at + length);
        let end = text[result..].find(';').map_or(text.len(), |length| result + length + 1);
        found.push(Item::standing(lines::word(&text[at + 3..]), text, at..end));
    }
    found
}
