//! Reads a profile file: lines `U+HEX ROLE` and `U+HEX..U+HEX ROLE`, rising; `#` begins a comment.

use crate::text::{of_line, read_text, shown};
use luffinarc::{Role, MAX_ENTRIES};
use std::ops::RangeInclusive;
use std::path::Path;

const FORM: &str = "not of the form U+HEX ROLE or U+HEX..U+HEX ROLE";

/// `U+HEX`, or `HEX` of four digits or more, a scalar value.
fn scalar_value(field: &str) -> Result<u32, String> {
    let marked = field.strip_prefix("U+").or_else(|| field.strip_prefix("u+"));
    let (digits, least) = marked.map_or((field, 4), |digits| (digits, 1));
    if digits.len() < least || !digits.bytes().all(|b| b.is_ascii_hexdigit()) {
        return Err(FORM.to_string());
    }
    // More digits than a word has are no scalar value either.
    let point = u32::from_str_radix(digits, 16).ok().and_then(char::from_u32).map(u32::from);
    point.ok_or_else(|| format!("U+{} is no scalar value", shown(&digits.to_ascii_uppercase())))
}

/// The scalar values of a line: one, or a range.
fn scalar_values(field: &str) -> Result<RangeInclusive<u32>, String> {
    let (first, last) = field.split_once("..").unwrap_or((field, field));
    let (first, last) = (scalar_value(first)?, scalar_value(last)?);
    if first > last {
        return Err(format!("U+{first:04X}..U+{last:04X} ends before it begins"));
    }
    if first < 0xD800 && last > 0xDFFF {
        return Err("U+D800 is no scalar value".to_string());
    }
    Ok(first..=last)
}

/// A role's number or its name.
fn role(field: &str) -> Result<Role, String> {
    if field.bytes().all(|b| b.is_ascii_digit()) {
        let role = field.parse().ok().and_then(Role::from_number);
        return role.ok_or_else(|| format!("role {} is not 1 to 5", shown(field)));
    }
    let mut roles = (1..=5).filter_map(Role::from_number);
    roles.find(|role| role.name().eq_ignore_ascii_case(field)).ok_or_else(|| {
        format!("role {} is not Start, Nonstart, Medial, Other or Hashtag", shown(field))
    })
}

/// What was read of a profile file.
#[derive(Default)]
struct Lines {
    entries: Vec<(u32, Role)>,
    /// The number of the line with the last entry.
    last: usize,
}

impl Lines {
    fn line(&mut self, number: usize, line: &str) -> Result<(), String> {
        let plain = line.split('#').next().unwrap_or("");
        let fields: Vec<&str> = plain.split_whitespace().collect();
        let (values, role) = match fields[..] {
            [] => return Ok(()),
            [values, named] => (scalar_values(values)?, role(named)?),
            _ => return Err(FORM.to_string()),
        };
        match self.entries.last() {
            Some((before, _)) if values.start() <= before => {
                let (first, line) = (values.start(), self.last);
                return Err(format!("U+{first:04X} is not above U+{before:04X} of line {line}"));
            }
            _ => self.last = number,
        }
        for value in values {
            if self.entries.len() == MAX_ENTRIES {
                let entry = MAX_ENTRIES + 1;
                return Err(format!("U+{value:04X} is entry {entry}, at most {MAX_ENTRIES}"));
            }
            self.entries.push((value, role));
        }
        Ok(())
    }
}

/// The entries of a profile file, which an image may have.
///
/// # Errors
///
/// What is wrong, in one line, with the file's name and the line.
pub fn read_profile(file: &Path) -> Result<Vec<(u32, Role)>, String> {
    let text = read_text(file)?;
    let mut lines = Lines::default();
    // Some editors put U+FEFF before the first line.
    let text = text.strip_prefix('\u{FEFF}').unwrap_or(&text);
    for (i, line) in text.lines().enumerate() {
        lines.line(i + 1, line).map_err(|why| of_line(file, i + 1, why))?;
    }
    Ok(lines.entries)
}
