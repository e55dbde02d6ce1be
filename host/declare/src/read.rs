//! Reads the exports of a crate: its functions that are marked `#[unsafe(no_mangle)] pub extern "C"`.

use crate::export::{Export, Kind, Number, Parameter};
use crate::{lines, File};
use std::collections::HashMap;

/// What a name of the crate is called outside. In the crate's contracts `record` is a word of the logic, and `place` a
/// definition.
const OUTSIDE: [(&str, &str); 2] = [("numbers", "record"), ("at", "place")];

/// A word, a number, or a sign, with its line.
pub type Token<'a> = (&'a str, usize);

/// The tokens of a file, without comments. Of strings only "C" is one.
pub fn tokens(text: &str) -> Vec<Token<'_>> {
    let mut found = Vec::new();
    for (number, line) in text.lines().enumerate() {
        let code = line.split("//").next().unwrap_or_default();
        let mut rest = code.trim_start();
        while let Some(first) = rest.chars().next() {
            let length = match lines::word(rest).len() {
                0 if rest.starts_with("\"C\"") => 3,
                0 if rest.starts_with("->") => 2,
                0 => first.len_utf8(),
                word => word,
            };
            let (token, after) = rest.split_at(length);
            found.push((token, number + 1));
            rest = after.trim_start();
        }
    }
    found
}

/// A type as it is written.
#[derive(Clone, Debug, PartialEq)]
enum Type<'a> {
    Name(&'a str),
    Unit,
    Slice(Box<Type<'a>>),
    Array(Box<Type<'a>>, usize),
    Reference { writes: bool, to: Box<Type<'a>> },
}

/// Tokens that are read one after the other.
pub struct Reader<'t, 'a> {
    pub tokens: &'t [Token<'a>],
}

impl<'a> Reader<'_, 'a> {
    fn next(&mut self) -> Option<&'a str> {
        let (&(token, _), rest) = self.tokens.split_first()?;
        self.tokens = rest;
        Some(token)
    }

    /// Takes the token if it is the next.
    fn takes(&mut self, token: &str) -> bool {
        let is = self.tokens.first().is_some_and(|&(next, _)| next == token);
        if is {
            self.next();
        }
        is
    }

    fn must(&mut self, token: &str) -> Option<()> {
        self.takes(token).then_some(())
    }

    fn name(&mut self) -> Option<&'a str> {
        self.next().filter(|token| token.starts_with(|c: char| c.is_alphabetic() || c == '_'))
    }

    fn a_type(&mut self) -> Option<Type<'a>> {
        if self.takes("&") {
            if self.takes("'") {
                self.name()?;
            }
            let writes = self.takes("mut");
            return Some(Type::Reference { writes, to: Box::new(self.a_type()?) });
        }
        if self.takes("(") {
            self.must(")")?;
            return Some(Type::Unit);
        }
        if self.takes("[") {
            let of = Box::new(self.a_type()?);
            let found = if self.takes(";") {
                Type::Array(of, self.next()?.replace('_', "").parse().ok()?)
            } else {
                Type::Slice(of)
            };
            self.must("]")?;
            return Some(found);
        }
        let mut name = self.name()?;
        while self.takes(":") {
            self.must(":")?;
            name = self.name()?;
        }
        Some(Type::Name(name))
    }

    fn alias(&mut self) -> Option<(&'a str, Type<'a>)> {
        self.must("type")?;
        let name = self.name()?;
        self.must("=")?;
        Some((name, self.a_type()?))
    }

    /// A constant, `const NAME: usize = 5;`.
    pub fn constant(&mut self) -> Option<(&'a str, usize)> {
        self.must("const")?;
        let name = self.name()?;
        for token in [":", "usize", "="] {
            self.must(token)?;
        }
        let number = self.next()?.parse().ok()?;
        self.must(";")?;
        Some((name, number))
    }

    /// The parameters in brackets and the result, behind a function's name.
    fn signature(&mut self) -> Option<(Vec<(&'a str, Type<'a>)>, Type<'a>)> {
        if self.takes("<") {
            while self.next()? != ">" {}
        }
        self.must("(")?;
        let mut parameters = Vec::new();
        while !self.takes(")") {
            let name = self.name()?;
            self.must(":")?;
            parameters.push((name, self.a_type()?));
            if !self.takes(",") {
                self.must(")")?;
                break;
            }
        }
        let result = if self.takes("->") { self.a_type()? } else { Type::Unit };
        Some((parameters, result))
    }
}

/// The types that have another name: `type Name = ..;`, of all crates.
struct Aliases<'a>(HashMap<&'a str, Vec<Type<'a>>>);

impl<'a> Aliases<'a> {
    fn of(files: &'a [File]) -> Aliases<'a> {
        let mut found: HashMap<&str, Vec<Type>> = HashMap::new();
        for file in files {
            let tokens = tokens(&file.text);
            for at in 0..tokens.len() {
                if let Some((name, meant)) = (Reader { tokens: &tokens[at..] }).alias() {
                    let all = found.entry(name).or_default();
                    if !all.contains(&meant) {
                        all.push(meant);
                    }
                }
            }
        }
        Aliases(found)
    }

    /// A type without other names. None where a name has no meaning that crosses, or two.
    fn meant(&self, written: &Type<'a>) -> Option<Type<'a>> {
        Some(match written {
            Type::Name(name) if Number::named(name).is_some() => written.clone(),
            Type::Name(name) => match &self.0.get(name)?[..] {
                [meant] => self.meant(meant)?,
                _ => return None,
            },
            Type::Unit => Type::Unit,
            Type::Slice(of) => Type::Slice(Box::new(self.meant(of)?)),
            Type::Array(of, count) => Type::Array(Box::new(self.meant(of)?), *count),
            Type::Reference { writes, to } => {
                Type::Reference { writes: *writes, to: Box::new(self.meant(to)?) }
            }
        })
    }

    /// How a parameter of a type crosses.
    fn crossing(&self, written: &Type<'a>) -> Option<(Kind, Number)> {
        let (kind, of) = match self.meant(written)? {
            Type::Reference { writes, to } => match *to {
                Type::Slice(of) => (Kind::Slice { writes }, *of),
                Type::Array(of, count) => (Kind::Array { writes, count }, *of),
                one => (Kind::One { writes }, one),
            },
            value => (Kind::Value, value),
        };
        let Type::Name(name) = of else { return None };
        Some((kind, Number::named(name)?))
    }
}

/// Reads an export behind its name.
fn export(
    name: &str,
    mut reader: Reader,
    aliases: &Aliases,
    place: String,
) -> Result<Export, String> {
    let wrong = |what: String| format!("{place}: {name}: {what}");
    let (written, gives) =
        reader.signature().ok_or_else(|| wrong("its parameters cannot be read".into()))?;
    if !name.starts_with("lc_") {
        return Err(wrong("an export's name begins with lc_".into()));
    }
    let mut parameters: Vec<Parameter> = Vec::new();
    for (inside, written) in written {
        let outside = OUTSIDE.iter().find(|names| names.0 == inside);
        let name = outside.map_or(inside, |names| names.1).to_string();
        let (kind, of) = aliases
            .crossing(&written)
            .ok_or_else(|| wrong(format!("`{inside}` has a type that does not cross to C")))?;
        if parameters.iter().any(|other| other.name == name) {
            return Err(wrong(format!("two parameters are called `{name}` outside")));
        }
        parameters.push(Parameter { name, kind, of });
    }
    let result = match aliases.meant(&gives) {
        Some(Type::Unit) => None,
        Some(Type::Name(number)) => Number::named(number),
        _ => return Err(wrong("its result does not cross to C".into())),
    };
    Ok(Export { name: name.into(), parameters, result, place })
}

/// The exports that files of one crate have, by their names, so that it does not matter which file has which; other names of
/// types are looked for in all crates. Err has a line for each that cannot be read.
pub fn exports(source: &[File], crates: &[File]) -> Result<Vec<Export>, Vec<String>> {
    let aliases = Aliases::of(crates);
    let (mut found, mut wrong) = (Vec::<Export>::new(), Vec::new());
    for file in source {
        let tokens = tokens(&file.text);
        let marks = tokens.iter().filter(|token| token.0 == "no_mangle").count();
        let mut read = 0;
        for at in 0..tokens.len() {
            let mut reader = Reader { tokens: &tokens[at..] };
            let before = tokens[..at].iter().rev().take_while(|token| !"{};".contains(token.0));
            if !["extern", "\"C\"", "fn"].iter().all(|token| reader.takes(token))
                || before.into_iter().all(|token| token.0 != "no_mangle")
            {
                continue;
            }
            let place = format!("{}:{}", file.name, tokens[at].1);
            let Some(name) = reader.name() else { continue };
            read += 1;
            match export(name, reader, &aliases, place) {
                Ok(export) if found.iter().any(|other| other.name == name) => {
                    wrong.push(format!("{}: {name} is exported twice", export.place));
                }
                Ok(export) => found.push(export),
                Err(line) => wrong.push(line),
            }
        }
        if read != marks {
            let name = &file.name;
            wrong.push(format!("{name}: {marks} functions are marked no_mangle, {read} were read"));
        }
    }
    if wrong.is_empty() {
        found.sort_by(|one, other| one.name.cmp(&other.name));
        Ok(found)
    } else {
        Err(wrong)
    }
}

#[cfg(test)]
mod tests {
    use super::*;

    fn read(text: &str) -> Result<Vec<Export>, Vec<String>> {
        let file = |text: &str| [File { name: "x.rt".into(), text: text.into() }];
        exports(&file(text), &file("pub type Mask = u16; type Two = [Mask; 2]; type Two2 = Two;"))
    }

    fn one(parameters: &str) -> Result<Vec<(Kind, &'static str)>, Vec<String>> {
        let text =
            format!("#[unsafe(no_mangle)]\npub extern \"C\" fn lc_x{parameters} -> u32 {{ 0 }}");
        let mut exports = read(&text)?;
        let export = exports.pop().unwrap();
        Ok(export.parameters.iter().map(|parameter| (parameter.kind, parameter.of.rust)).collect())
    }

    #[test]
    fn each_form_crosses() {
        let (a, b) = (Kind::Slice { writes: false }, Kind::Slice { writes: true });
        assert_eq!(one("(a: &[u8], b: &mut [Mask])"), Ok(vec![(a, "u8"), (b, "u16")]));
        let (a, b) =
            (Kind::Array { writes: false, count: 1_000 }, Kind::Array { writes: true, count: 2 });
        assert_eq!(one("(a: &[i64; 1_000], b: &mut Two2,)"), Ok(vec![(a, "i64"), (b, "u16")]));
        let (a, b) = (Kind::One { writes: false }, Kind::One { writes: true });
        assert_eq!(one("<'a>(a: &'a f64, b: &mut lines::Mask)"), Ok(vec![(a, "f64"), (b, "u16")]));
        assert_eq!(
            one("(a: bool, // of b: u8\n at: u64)"),
            Ok(vec![(Kind::Value, "bool"), (Kind::Value, "u64")])
        );
        assert_eq!(one("()"), Ok(vec![]));
    }

    #[test]
    fn what_does_not_cross_is_said() {
        for parameter in ["a: View", "a: [u8; 4]", "a: &[[u8; 2]]", "a: &&u8", "a: ()"] {
            let line = "x.rt:2: lc_x: `a` has a type that does not cross to C";
            assert_eq!(one(&format!("({parameter})")), Err(vec![line.into()]), "{parameter}");
        }
        let line = "x.rt:2: lc_x: two parameters are called `record` outside";
        assert_eq!(one("(numbers: u8, record: u8)"), Err(vec![line.into()]));
        assert_eq!(
            one("(a: &[u8; N])"),
            Err(vec!["x.rt:2: lc_x: its parameters cannot be read".into()])
        );
    }

    #[test]
    fn only_what_is_marked_is_exported() {
        let plain = "pub extern \"C\" fn lc_a() {}\n#[unsafe(no_mangle)]\npub extern \"C\" fn lc_b() {}\n// #[unsafe(no_mangle)]\n";
        let exports = read(plain).unwrap();
        assert_eq!(exports.len(), 1);
        assert_eq!((&exports[0].name[..], exports[0].result), ("lc_b", None));
        let odd = "#[unsafe(no_mangle)]\npub extern fn lc_c() {}";
        assert_eq!(
            read(odd),
            Err(vec!["x.rt: 1 functions are marked no_mangle, 0 were read".into()])
        );
    }
}
