//! Lines of declarations, and the words in them.

/// Parts with commas between them, from a column on, as many to a line as there is room for.
pub fn filled(parts: &[String], indent: usize, columns: usize) -> String {
    let (mut text, mut column) = (String::new(), indent);
    for (index, part) in parts.iter().enumerate() {
        if index > 0 {
            // behind it a comma, or what closes the list, has room too
            if column + 2 + part.len() + 2 <= columns {
                text += ", ";
                column += 2;
            } else {
                text += &format!(",\n{:indent$}", "");
                column = indent;
            }
        }
        text += part;
        column += part.len();
    }
    text
}

pub fn in_word(c: char) -> bool {
    c.is_alphanumeric() || c == '_'
}

/// The word at the text's start.
pub fn word(text: &str) -> &str {
    &text[..text.find(|c| !in_word(c)).unwrap_or(text.len())]
}
