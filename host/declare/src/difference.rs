//! What stands in a file beside what is made.

use std::ops::Range;

/// A declaration, or a definition that declarations use.
#[derive(Clone, Debug)]
pub struct Item {
    pub name: String,
    pub text: String,
    /// Where it stands in the file.
    pub range: Range<usize>,
    /// What makes it.
    pub from: String,
}

impl Item {
    /// One that stands in a file.
    pub fn standing(name: &str, file: &str, range: Range<usize>) -> Item {
        Item { name: name.into(), text: file[range.clone()].into(), range, from: String::new() }
    }
}

/// One that is made.
pub fn made(name: &str, text: String, from: &str) -> Item {
    Item { name: name.into(), text, range: 0..0, from: from.into() }
}

/// Its parts between commas, brackets and semicolons, which is what order, types and names make: white space and the ends of
/// lines do not count.
fn parts(text: &str) -> Vec<String> {
    let (mut parts, mut part, mut square) = (Vec::new(), String::new(), 0);
    for c in text.chars() {
        match c {
            '[' => square += 1,
            ']' => square -= 1,
            _ => {}
        }
        if "(){},".contains(c) || c == ';' && square == 0 {
            parts.push(std::mem::take(&mut part));
        } else {
            part.push(if c == '\\' { ' ' } else { c });
        }
    }
    parts.push(part);
    let words = |part: &String| part.split_whitespace().collect::<Vec<_>>().join(" ");
    parts.iter().map(words).filter(|part| !part.is_empty()).collect()
}

/// How an item differs from the one that is made.
fn difference(stands: &Item, made: &Item) -> Option<String> {
    if stands.text == made.text {
        return None;
    }
    let (has, wants) = (parts(&stands.text), parts(&made.text));
    let same = has.iter().zip(&wants).take_while(|(has, wants)| has == wants).count();
    let from = &made.from;
    Some(match (has.get(same), wants.get(same)) {
        (Some(has), Some(wants)) => format!("has `{has}` where {from} makes `{wants}`"),
        (Some(has), None) => format!("has `{has}` at its end, which {from} does not make"),
        (None, Some(wants)) => format!("lacks `{wants}` at its end, which {from} makes"),
        (None, None) => "is laid out otherwise".into(),
    })
}

/// A line for each item of a file that is not as it is made.
pub fn of(file: &str, made: &[Item], stand: &[Item]) -> Vec<String> {
    let mut lines = Vec::new();
    for item in made {
        let name = &item.name;
        let mut standing = stand.iter().filter(|other| other.name == *name);
        match standing.next() {
            None => lines.push(format!("{file}: {name} is missing; {} makes it", item.from)),
            Some(first) => {
                if let Some(difference) = difference(first, item) {
                    lines.push(format!("{file}: {name} {difference}"));
                }
            }
        }
        if standing.next().is_some() {
            lines.push(format!("{file}: {name} stands twice"));
        }
    }
    for item in stand {
        if made.iter().all(|other| other.name != item.name) {
            lines.push(format!("{file}: {} is no export's", item.name));
        }
    }
    lines
}
