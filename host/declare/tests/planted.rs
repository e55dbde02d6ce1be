//! Differences, planted one at a time: each is one line that says where it is and what it should be.

use declare::{exports, names, Declarations, File};

const SOURCE: &str = r#"
// A question and a push.
#[unsafe(no_mangle)]
pub extern "C" fn lc_get<'a>(
    numbers: &[usize; 5],
    samples: &[u8],
    l1: &'a [Mask],
    l2: &'a [Mask],
    l3: &'a [Mask],
    l4: &'a [Mask],
    i: usize,
    value: &mut Mask,
) -> u32
    ensures { result ≡ 0 }
{
    codes::got_code(capture::get(capture_in(numbers), samples, l1, l2, l3, l4, i), value)
}

#[unsafe(no_mangle)]
pub extern "C" fn lc_push(numbers: &mut [usize; 17], samples: &mut [u8], l1: &mut [Mask], l2: &mut [Mask], l3: &mut [Mask], l4: &mut [Mask], bytes: &[u8])
{
}
"#;

const NAMING: &str = "// Which is which.
pub const UNIT: usize = 0;
// const is a word
pub const LEN: usize = 1;
";

const HEADER: &str = "/* It is lent void lc_memory(). */
#ifndef LOGIC_CORE_H
/* Which is which. */
enum lc_record {};
typedef struct lc_memory {
} lc_memory;
#define LC_LEND
#define LC_MEMORY
#define LC_CONST_MEMORY

/* Gets. */
void lc_get();
/* Pushes. */
void lc_push();
#endif
";

const MADE: &str = "/* It is lent void lc_memory(). */
#ifndef LOGIC_CORE_H
/* Which is which. */
enum lc_record { LC_UNIT = 0, LC_LEN = 1 };
typedef struct lc_memory {
    uint8_t *samples;
    uint16_t *level[4];
    size_t sizes[5];
} lc_memory;
#define LC_LEND(m) \\
    (m).samples, (m).sizes[0], (m).level[0], (m).sizes[1], (m).level[1], (m).sizes[2], (m).level[2], (m).sizes[3], \\
    (m).level[3], (m).sizes[4]
#define LC_MEMORY \\
    uint8_t *samples, size_t samples_len, uint16_t *l1, size_t l1_len, uint16_t *l2, size_t l2_len, \\
    uint16_t *l3, size_t l3_len, uint16_t *l4, size_t l4_len
#define LC_CONST_MEMORY \\
    const uint8_t *samples, size_t samples_len, const uint16_t *l1, size_t l1_len, const uint16_t *l2, size_t l2_len, \\
    const uint16_t *l3, size_t l3_len, const uint16_t *l4, size_t l4_len

/* Gets. */
uint32_t lc_get(const size_t record[5], LC_CONST_MEMORY, size_t i, uint16_t *value);
/* Pushes. */
void lc_push(size_t record[17], LC_MEMORY, const uint8_t *bytes, size_t bytes_len);
#endif
";

const RUST: &str = "
#[allow(dead_code)]
pub mod record {
    pub const UNIT: usize = 0;
    pub const LEN: usize = 1;
}

exports! {
    fn lc_get(
        record: *const [usize; 5], samples: *const u8, samples_len: usize,
        l1: *const u16, l1_len: usize, l2: *const u16, l2_len: usize,
        l3: *const u16, l3_len: usize, l4: *const u16, l4_len: usize, i: usize, value: *mut u16
    ) -> u32;
    fn lc_push(
        record: *mut [usize; 17], samples: *mut u8, samples_len: usize,
        l1: *mut u16, l1_len: usize, l2: *mut u16, l2_len: usize, l3: *mut u16, l3_len: usize,
        l4: *mut u16, l4_len: usize, bytes: *const u8, bytes_len: usize
    ) -> ();
}
";

fn file(name: &str, text: &str) -> [File; 1] {
    [File { name: name.into(), text: text.into() }]
}

/// The declarations that a source makes, put into a header.
fn made(source: &str, header: &str) -> Result<Declarations, Vec<String>> {
    let exports = exports(&file("it.rt", source), &file("lines.rt", "pub type Mask = u16;"))?;
    let names = names(&file("src/record.rt", NAMING))?;
    let mut declarations =
        Declarations { exports, names, header: header.into(), rust: String::new() };
    declarations.make()?;
    assert_eq!(declarations.differences(), [""; 0]);
    Ok(declarations)
}

fn right() -> Declarations {
    made(SOURCE, HEADER).unwrap()
}

/// Puts one text in another's place, which stands once.
fn planted(text: &str, old: &str, new: &str) -> String {
    assert_eq!(text.matches(old).count(), 1, "{old}");
    text.replace(old, new)
}

#[test]
fn declarations_are_made() {
    let Declarations { header, rust, .. } = right();
    assert_eq!(header, MADE);
    assert!(rust.ends_with(RUST), "{rust}");
}

#[test]
fn a_difference_in_the_header_is_one_line() {
    for (old, new, line) in [
        (
            "const size_t record[5], LC_CONST_MEMORY",
            "LC_CONST_MEMORY, const size_t record[5]",
            "lc_get has `LC_CONST_MEMORY` where it.rt:4 makes `const size_t record[5]`",
        ),
        (
            "const size_t record[5]",
            "size_t record[5]",
            "lc_get has `size_t record[5]` where it.rt:4 makes `const size_t record[5]`",
        ),
        (
            "LC_CONST_MEMORY, size_t i",
            "LC_MEMORY, size_t i",
            "lc_get has `LC_MEMORY` where it.rt:4 makes `LC_CONST_MEMORY`",
        ),
        ("size_t i", "uint16_t i", "lc_get has `uint16_t i` where it.rt:4 makes `size_t i`"),
        ("size_t i", "size_t place", "lc_get has `size_t place` where it.rt:4 makes `size_t i`"),
        ("record[17]", "record[16]", "lc_push has `size_t record[16]` where it.rt:20 makes `size_t record[17]`"),
        (
            ", uint16_t *value",
            "",
            "lc_get lacks `uint16_t *value` at its end, which it.rt:4 makes",
        ),
        (
            "*value",
            "*value, size_t j",
            "lc_get has `size_t j` at its end, which it.rt:4 does not make",
        ),
        ("uint32_t lc_get", "int32_t lc_get", "lc_get has `int32_t lc_get` where it.rt:4 makes `uint32_t lc_get`"),
        (", uint16_t *value", ",\nuint16_t *value", "lc_get is laid out otherwise"),
        ("/* Pushes. */\nvoid", "/* Pushes. void */", "lc_push has `lc_push` where it.rt:20 makes `void lc_push`"),
        ("/* Pushes. */", "void\nlc_odd (int) ;", "lc_odd is no export's"),
        (
            "const uint16_t *l2",
            "uint16_t *l2",
            "LC_CONST_MEMORY has `uint16_t *l2` where the exports' lent memory makes `const uint16_t *l2`",
        ),
        (
            "(m).level[0], (m).sizes[1]",
            "(m).level[1], (m).sizes[1]",
            "LC_LEND has `.level[1]` where the exports' lent memory makes `.level[0]`",
        ),
        ("LC_LEN = 1", "LC_LEN = 2", "lc_record has `LC_LEN = 2` where src/record.rt makes `LC_LEN = 1`"),
        (", LC_LEN = 1", "", "lc_record lacks `LC_LEN = 1` at its end, which src/record.rt makes"),
        (
            "uint16_t *level[4]",
            "uint8_t *level[4]",
            "lc_memory has `uint8_t *level[4]` where the exports' lent memory makes `uint16_t *level[4]`",
        ),
    ] {
        let mut declarations = right();
        declarations.header = planted(MADE, old, new);
        assert_eq!(declarations.differences(), [format!("include/logic_core.h: {line}")]);
    }

    let mut declarations = right();
    declarations.header += "void lc_push(void);";
    assert_eq!(declarations.differences(), ["include/logic_core.h: lc_push stands twice"]);
    let (before, _) = MADE.split_once("void lc_push(size_t").unwrap();
    declarations.header = before.into();
    assert_eq!(
        declarations.differences(),
        ["include/logic_core.h: lc_push is missing; it.rt:20 makes it"]
    );
}

#[test]
fn a_difference_in_the_rust_is_one_line() {
    for (old, new, line) in [
        (
            "l1: *mut u16, l1_len: usize, l2: *mut u16, l2_len: usize",
            "l2: *mut u16, l2_len: usize, l1: *mut u16, l1_len: usize",
            "lc_push has `l2: *mut u16` where it.rt:20 makes `l1: *mut u16`",
        ),
        (
            "*const [usize; 5]",
            "*mut [usize; 5]",
            "lc_get has `record: *mut [usize; 5]` where it.rt:4 makes `record: *const [usize; 5]`",
        ),
        ("i: usize", "i: u16", "lc_get has `i: u16` where it.rt:4 makes `i: usize`"),
        ("-> u32", "-> u64", "lc_get has `-> u64` where it.rt:4 makes `-> u32`"),
        ("    fn lc_push(\n", "", "lc_push is missing; it.rt:20 makes it"),
        ("-> ();\n}\n", "-> ();\n    fn lc_odd() -> ();\n}\n", "lc_odd is no export's"),
        (
            "LEN: usize = 1",
            "LEN: usize = 2",
            "record has `pub const LEN: usize = 2` where src/record.rt makes `pub const LEN: usize = 1`",
        ),
        ("exports! {\n", "exports! {\n\n", "is laid out otherwise"),
    ] {
        let mut declarations = right();
        declarations.rust = planted(&declarations.rust, old, new);
        assert_eq!(declarations.differences(), [format!("include/logic_core.rs: {line}")]);
    }
}

#[test]
fn a_difference_in_the_source_is_a_line_for_each_file() {
    let differs = |old: &str, new: &str, header: &str, rust: &str| {
        let declarations = match SOURCE.contains(old) {
            true => {
                let exports = made(&planted(SOURCE, old, new), HEADER).unwrap().exports;
                Declarations { exports, ..right() }
            }
            false => {
                let names = names(&file("src/record.rt", &planted(NAMING, old, new))).unwrap();
                Declarations { names, ..right() }
            }
        };
        let lines = declarations.differences();
        assert_eq!(
            lines,
            [format!("include/logic_core.h: {header}"), format!("include/logic_core.rs: {rust}")]
        );
    };
    differs(
        "i: usize",
        "i: u64",
        "lc_get has `size_t i` where it.rt:4 makes `uint64_t i`",
        "lc_get has `i: usize` where it.rt:4 makes `i: u64`",
    );
    differs(
        "    i: usize,\n    value: &mut Mask,\n",
        "    value: &mut Mask,\n    i: usize,\n",
        "lc_get has `size_t i` where it.rt:4 makes `uint16_t *value`",
        "lc_get has `i: usize` where it.rt:4 makes `value: *mut u16`",
    );
    differs(
        "bytes: &[u8]",
        "bytes: &mut [u8]",
        "lc_push has `const uint8_t *bytes` where it.rt:20 makes `uint8_t *bytes`",
        "lc_push has `bytes: *const u8` where it.rt:20 makes `bytes: *mut u8`",
    );
    differs(
        "LEN: usize = 1",
        "LEN: usize = 2",
        "lc_record has `LC_LEN = 1` where src/record.rt makes `LC_LEN = 2`",
        "record has `pub const LEN: usize = 1` where src/record.rt makes `pub const LEN: usize = 2`",
    );
    // where one slice of lent memory differs from the others, all are spelled out
    differs(
        "l3: &'a [Mask]",
        "l3: &'a [u8]",
        "lc_get has `LC_CONST_MEMORY` where it.rt:4 makes `const uint8_t *samples`",
        "lc_get has `l3: *const u16` where it.rt:4 makes `l3: *const u8`",
    );
}

#[test]
fn names_that_cannot_be_told_apart_or_read_are_said() {
    let said = |text: &str| names(&file("src/record.rt", text)).unwrap_err();
    let twice = format!("{NAMING}pub const LEN: usize = 2;\n");
    assert_eq!(said(&twice), ["src/record.rt:5: LEN is named twice"]);
    let odd = "pub const LEN: usize = UNIT + 1;";
    assert_eq!(said(odd), ["src/record.rt:1: a constant that cannot be read"]);
}

#[test]
fn people_say_where_a_new_export_stands() {
    let more = format!(
        "{SOURCE}\n#[unsafe(no_mangle)]\npub extern \"C\" fn lc_new(x: &f64) -> i64 {{ 0 }}\n"
    );
    let Err(lines) = made(&more, HEADER) else { panic!("it stands nowhere") };
    assert_eq!(lines, ["include/logic_core.h: lc_new is missing; it.rt:25 makes it"]);
    let placed = planted(HEADER, "/* Pushes. */", "/* New. */\nvoid lc_new();\n\n/* Pushes. */");
    let header = made(&more, &placed).unwrap().header;
    assert!(
        header.contains("/* New. */\nint64_t lc_new(const double *x);\n\n/* Pushes. */"),
        "{header}"
    );
}
