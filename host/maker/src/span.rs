//! Ranges of code points as the files of the database write them.

use crate::text::shown;

/// A range of code points, first and last.
pub type Span = (u32, u32);

/// A code point of 4 to 6 hexadecimal digits, at most 10FFFF.
pub fn point(digits: &str) -> Result<u32, String> {
    let hex = digits.bytes().all(|b| b.is_ascii_hexdigit());
    match u32::from_str_radix(digits, 16) {
        Ok(point) if hex && (4..=6).contains(&digits.len()) => {
            let above = format!("U+{point:04X} is above U+10FFFF");
            (point <= 0x10FFFF).then_some(point).ok_or(above)
        }
        _ => Err(format!("{} is no code point of 4 to 6 digits", shown(digits))),
    }
}

/// `HEX` or `HEX..HEX`.
pub fn span(field: &str) -> Result<Span, String> {
    let (first, last) = field.split_once("..").unwrap_or((field, field));
    let (first, last) = (point(first)?, point(last)?);
    let falls = format!("U+{first:04X}..U+{last:04X} ends before it begins");
    (first <= last).then_some((first, last)).ok_or(falls)
}

/// How many code points a range has.
pub fn size((first, last): Span) -> u64 {
    u64::from(last - first) + 1
}
