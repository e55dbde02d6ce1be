//! The names of numbers that cross side by side: the constants of the files that say which is which.

use crate::difference::{made, Item};
use crate::read::{tokens, Reader};
use crate::{lines, File};

/// The constants of one file, by the file's name.
#[derive(Clone, Debug, PartialEq, Eq)]
pub struct Names {
    pub name: String,
    pub constants: Vec<(String, usize)>,
    /// The file that has them.
    pub place: String,
}

/// The names that files have, each all of its constants. Err has a line for each that cannot be read, or is there twice.
pub fn names(files: &[File]) -> Result<Vec<Names>, Vec<String>> {
    let (mut found, mut wrong) = (Vec::<Names>::new(), Vec::new());
    for File { name: place, text } in files {
        let file = place.rsplit('/').next().unwrap_or_default();
        let name = file.strip_suffix(".rt").unwrap_or(file).to_string();
        let mut constants = Vec::new();
        let tokens = tokens(text);
        for at in (0..tokens.len()).filter(|&at| tokens[at].0 == "const") {
            let Some((constant, number)) = (Reader { tokens: &tokens[at..] }).constant() else {
                wrong.push(format!("{place}:{}: a constant that cannot be read", tokens[at].1));
                continue;
            };
            let mut others = found.iter().flat_map(|names| &names.constants).chain(&constants);
            if others.any(|other| other.0 == constant) {
                wrong.push(format!("{place}:{}: {constant} is named twice", tokens[at].1));
            }
            constants.push((constant.to_string(), number));
        }
        found.push(Names { name, constants, place: place.clone() });
    }
    if wrong.is_empty() {
        Ok(found)
    } else {
        Err(wrong)
    }
}

/// In C, an enumeration for each file.
pub fn in_c(names: &Names, columns: usize) -> Item {
    let Names { name, constants, place } = names;
    let parts: Vec<_> = constants.iter().map(|(name, at)| format!("LC_{name} = {at}")).collect();
    let line = format!("enum lc_{name} {{ {} }};", parts.join(", "));
    let text = if line.len() <= columns {
        line
    } else {
        format!("enum lc_{name} {{\n    {}\n}};", lines::filled(&parts, 4, columns))
    };
    made(&format!("lc_{name}"), text, place)
}

/// In Rust, a module for each file.
pub fn in_rust(names: &Names) -> Item {
    let Names { name, constants, place } = names;
    let mut text = format!("pub mod {name} {{\n");
    for (name, at) in constants {
        text += &format!("    pub const {name}: usize = {at};\n");
    }
    made(name, text + "}", place)
}
