//! An export: what crosses, and in which order.

/// A number that crosses by value, as Rattle and Rust call it and as C does.
#[derive(Clone, Copy, Debug, PartialEq, Eq)]
pub struct Number {
    pub rust: &'static str,
    pub c: &'static str,
}

const NUMBERS: [Number; 13] = [
    Number { rust: "u8", c: "uint8_t" },
    Number { rust: "u16", c: "uint16_t" },
    Number { rust: "u32", c: "uint32_t" },
    Number { rust: "u64", c: "uint64_t" },
    Number { rust: "usize", c: "size_t" },
    Number { rust: "i8", c: "int8_t" },
    Number { rust: "i16", c: "int16_t" },
    Number { rust: "i32", c: "int32_t" },
    Number { rust: "i64", c: "int64_t" },
    Number { rust: "isize", c: "ptrdiff_t" },
    Number { rust: "bool", c: "bool" },
    Number { rust: "f32", c: "float" },
    Number { rust: "f64", c: "double" },
];

impl Number {
    pub fn named(name: &str) -> Option<Number> {
        NUMBERS.into_iter().find(|number| number.rust == name)
    }
}

/// How a parameter crosses.
#[derive(Clone, Copy, Debug, PartialEq, Eq)]
pub enum Kind {
    Value,
    /// A pointer to one.
    One {
        writes: bool,
    },
    /// A pointer to so many.
    Array {
        writes: bool,
        count: usize,
    },
    /// A pointer and a length.
    Slice {
        writes: bool,
    },
}

#[derive(Clone, Debug, PartialEq, Eq)]
pub struct Parameter {
    pub name: String,
    pub kind: Kind,
    pub of: Number,
}

#[derive(Clone, Debug, PartialEq, Eq)]
pub struct Export {
    pub name: String,
    pub parameters: Vec<Parameter>,
    /// None: it gives nothing.
    pub result: Option<Number>,
    /// The file and line that export it.
    pub place: String,
}
