//! Characters, texts and numbers as they are shown.

use crate::appearance::{is_combining, is_hidden};

/// A code point in hex, as U+0041.
pub fn code_point(number: u32) -> String {
    format!("U+{number:04X}")
}

/// A character by itself: as it is where it can be seen, on a dotted circle where it combines, nothing otherwise.
pub fn glyph(c: char) -> Option<String> {
    match c {
        c if c == ' ' || is_hidden(c) => None,
        c if is_combining(c) => Some(format!("\u{25CC}{c}")),
        c => Some(c.to_string()),
    }
}

/// Whether a code point will never be a character.
pub fn is_noncharacter(number: u32) -> bool {
    (0xFDD0..=0xFDEF).contains(&number) || number & 0xFFFE == 0xFFFE
}

/// A text with U+FFFD for every character that can't be seen: a name in a message, which has one line.
pub fn visible(text: &str) -> String {
    text.chars().map(|c| if is_hidden(c) { char::REPLACEMENT_CHARACTER } else { c }).collect()
}

/// A text on one line: as it is where every character can be seen, otherwise quoted, with escapes as in Rust.
pub fn one_line(text: &str) -> String {
    // A mark may stand on a character, not on the blank or the quote before the text.
    let is_shown = |i: usize, c: char| !is_hidden(c) && (i > 0 || !is_combining(c));
    let is_plain = |(i, c): (usize, char)| c != ' ' && c != '"' && is_shown(i, c);
    if !text.is_empty() && text.char_indices().all(is_plain) {
        return text.to_string();
    }
    let mut quoted = String::from("\"");
    for (i, c) in text.char_indices() {
        match c {
            '"' | '\\' => quoted.extend(['\\', c]),
            '\n' => quoted.push_str("\\n"),
            '\r' => quoted.push_str("\\r"),
            '\t' => quoted.push_str("\\t"),
            c if is_shown(i, c) => quoted.push(c),
            c => quoted.extend(c.escape_unicode()),
        }
    }
    quoted + "\""
}

/// A text as a string of JSON, with escapes for what can't be seen.
pub fn json(text: &str) -> String {
    let mut quoted = String::from("\"");
    for c in text.chars() {
        match c {
            '"' | '\\' => quoted.extend(['\\', c]),
            '\n' => quoted.push_str("\\n"),
            '\r' => quoted.push_str("\\r"),
            '\t' => quoted.push_str("\\t"),
            c if !is_hidden(c) => quoted.push(c),
            c => {
                let mut units = [0; 2];
                for unit in c.encode_utf16(&mut units) {
                    quoted.push_str(&format!("\\u{unit:04x}"));
                }
            }
        }
    }
    quoted + "\""
}

/// An object of JSON, of names and values.
pub fn object(fields: &[(&str, String)]) -> String {
    let field = |(name, value): &(&str, String)| format!("\"{name}\":{value}");
    format!("{{{}}}", fields.iter().map(field).collect::<Vec<_>>().join(","))
}

/// A number with commas, as 1,048,576.
pub fn thousands(number: usize) -> String {
    let digits = number.to_string();
    let mut shown = String::new();
    for (i, digit) in digits.chars().enumerate() {
        if i > 0 && (digits.len() - i) % 3 == 0 {
            shown.push(',');
        }
        shown.push(digit);
    }
    shown
}

/// A number and what is counted, as `1 token`, `2 tokens`; `many` is the word for more than one.
pub fn counted(number: usize, one: &str, many: &str) -> String {
    format!("{} {}", thousands(number), if number == 1 { one } else { many })
}
