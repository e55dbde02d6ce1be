//! Declarations in C.

use crate::difference::{made, Item};
use crate::export::{Export, Kind, Number, Parameter};
use crate::lines;
use crate::names::{self, Names};

const COLUMNS: usize = 125;

/// The slices that make up lent memory; they stand together.
const LENT: [&str; 5] = ["samples", "l1", "l2", "l3", "l4"];

/// A parameter as C has it; a slice is two.
fn plain(parameter: &Parameter) -> String {
    let Parameter { name, kind, of: Number { c, .. } } = parameter;
    let to = |writes: bool| if writes { "" } else { "const " };
    match *kind {
        Kind::Value => format!("{c} {name}"),
        Kind::One { writes } => format!("{}{c} *{name}", to(writes)),
        Kind::Array { writes, count } => format!("{}{c} {name}[{count}]", to(writes)),
        Kind::Slice { writes } => format!("{}{c} *{name}, size_t {name}_len", to(writes)),
    }
}

/// A declaration of parts.
fn declared(export: &Export, mut parts: Vec<String>) -> String {
    if parts.is_empty() {
        parts.push("void".into());
    }
    let result = export.result.map_or("void", |number| number.c);
    let begin = format!("{result} {}(", export.name);
    let indent = begin.len();
    begin + &lines::filled(&parts, indent, COLUMNS) + ");"
}

/// A declaration with every parameter.
pub fn spelled_out(export: &Export) -> String {
    declared(export, export.parameters.iter().map(plain).collect())
}

/// What lent memory holds: the numbers of its samples, bytes, and those of its levels.
type Memory = [Number; 2];

/// Whether parameters begin with lent memory, whether that is written in, and what it holds.
fn lent(parameters: &[Parameter]) -> Option<(bool, Memory)> {
    let lent = parameters.get(..LENT.len())?;
    let Kind::Slice { writes } = lent[0].kind else { return None };
    let memory = [lent[0].of, lent[1].of];
    lent.iter().eq(&slices(writes, memory)).then_some((writes, memory))
}

/// Lent memory as parameters.
fn slices(writes: bool, [byte, number]: Memory) -> [Parameter; LENT.len()] {
    let kind = Kind::Slice { writes };
    LENT.map(|name| {
        let of = if name == LENT[0] { byte } else { number };
        Parameter { name: name.into(), kind, of }
    })
}

/// What the lent memory of the first export that is lent some holds.
fn memory(exports: &[Export]) -> Option<Memory> {
    let mut all = exports.iter().flat_map(|export| {
        (0..export.parameters.len()).filter_map(|at| lent(&export.parameters[at..]))
    });
    all.next().map(|(_, memory)| memory)
}

/// A declaration as people read it: lent memory is one word.
fn declaration(export: &Export, memory: Option<Memory>) -> String {
    let mut parts = Vec::new();
    let mut rest = &export.parameters[..];
    while let Some((first, others)) = rest.split_first() {
        match lent(rest) {
            Some((writes, of)) if Some(of) == memory => {
                parts.push(if writes { "LC_MEMORY" } else { "LC_CONST_MEMORY" }.into());
                rest = &rest[LENT.len()..];
            }
            _ => {
                parts.push(plain(first));
                rest = others;
            }
        }
    }
    declared(export, parts)
}

/// What stands for lent memory: a type that holds it, the arguments that it makes, and the parameters that take them.
fn lent_items(memory: Memory) -> Vec<Item> {
    let from = "the exports' lent memory";
    let [byte, number] = memory.map(|number| number.c);
    let define = |name: &str, head: &str, parts: &[String]| {
        let parts = lines::filled(parts, 4, COLUMNS).replace('\n', " \\\n");
        made(name, format!("#define {head} \\\n    {parts}"), from)
    };
    let parameters = |writes: bool| slices(writes, memory).map(|slice| plain(&slice));
    let holds = format!(
        "typedef struct lc_memory {{
    {byte} *samples;
    {number} *level[{}];
    size_t sizes[{}];
}} lc_memory;",
        LENT.len() - 1,
        LENT.len()
    );
    let mut arguments = vec!["(m).samples, (m).sizes[0]".to_string()];
    arguments.extend((1..LENT.len()).map(|l| format!("(m).level[{}], (m).sizes[{l}]", l - 1)));
    vec![
        made("lc_memory", holds, from),
        define("LC_LEND", "LC_LEND(m)", &arguments),
        define("LC_MEMORY", "LC_MEMORY", &parameters(true)),
        define("LC_CONST_MEMORY", "LC_CONST_MEMORY", &parameters(false)),
    ]
}

/// What the header must have.
pub fn items(exports: &[Export], names: &[Names]) -> Vec<Item> {
    let memory = memory(exports);
    let mut items: Vec<_> = names.iter().map(|names| names::in_c(names, COLUMNS)).collect();
    items.extend(memory.map(lent_items).unwrap_or_default());
    for export in exports {
        items.push(made(&export.name, declaration(export, memory), &export.place));
    }
    items
}

/// The name that a statement declares: the word before its first bracket, if that is one of the library's.
fn name_declared(statement: &str) -> Option<&str> {
    let before = statement[..statement.find('(')?].trim_end();
    let name = before.rsplit(|c: char| !lines::in_word(c)).next()?;
    name.starts_with("lc_").then_some(name)
}

/// The length of a directive, and the name that it defines if that is made here.
fn directive(text: &str) -> (usize, Option<&str>) {
    let ends = text.match_indices('\n').find(|&(end, _)| !text[..end].ends_with('\\'));
    let name = text.strip_prefix("#define ").map(lines::word);
    let made = name.filter(|name| ["LC_LEND", "LC_MEMORY", "LC_CONST_MEMORY"].contains(name));
    (ends.map_or(text.len(), |(end, _)| end), made)
}

/// What the header has. All else, comments too, is passed over.
pub fn find(header: &str) -> Vec<Item> {
    let through = |text: &str, end: &str| text.find(end).map_or(text.len(), |at| at + end.len());
    let mut found = Vec::new();
    let mut at = 0;
    while let Some(space) = header[at..].find(|c: char| !c.is_whitespace()) {
        at += space;
        let rest = &header[at..];
        let (length, name) = if rest.starts_with("/*") {
            (through(rest, "*/"), None)
        } else if rest.starts_with("//") {
            (through(rest, "\n"), None)
        } else if rest.starts_with('#') {
            directive(rest)
        } else if rest.starts_with("typedef struct lc_memory") {
            (through(rest, "} lc_memory;"), Some("lc_memory"))
        } else if rest.starts_with("enum lc_") {
            (through(rest, "};"), Some(lines::word(&rest["enum ".len()..])))
        } else {
            let length = rest.find([';', '{', '}']).map_or(rest.len(), |end| end + 1);
            (length, name_declared(&rest[..length]))
        };
        if let Some(name) = name {
            found.push(Item::standing(name, header, at..at + length));
        }
        at += length;
    }
    found
}
