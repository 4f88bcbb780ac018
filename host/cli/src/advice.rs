//! What can be done about a refused text, where that is known.

use crate::appearance::{is_digit, is_hidden};
use crate::place;
use crate::text::{code_point, is_noncharacter};
use luffinarc::{Class, Image, Role};
use std::ops::Range;

/// The direction marks that begin at a byte, as far as the image has them as White: their bytes, what they do, and what
/// can be done.
pub fn marks_at(
    image: &Image,
    text: &[u8],
    byte: usize,
) -> (Range<usize>, &'static str, &'static str) {
    let is_mark =
        |c: &char| matches!(c, '\u{200E}' | '\u{200F}') && image.class(*c) == Class::White;
    let marks: Vec<char> =
        place::well_formed_front(&text[byte..]).chars().take_while(is_mark).collect();
    let length: usize = marks.iter().map(|c| c.len_utf8()).sum();
    let (one, more) = if has_blanks(image) {
        (
            "without it this would be one token: take it out, or put a blank beside it",
            "without them this would be one token: take them out, or put a blank beside them",
        )
    } else {
        (
            "without it this would be one token: take it out",
            "without them this would be one token: take them out",
        )
    };
    let (label, help) = match marks[..] {
        ['\u{200E}'] => ("U+200E, of class White, parts it", one),
        ['\u{200F}'] => ("U+200F, of class White, parts it", one),
        _ => ("these marks, of class White, part it", more),
    };
    (byte..byte + length, label, help)
}

/// The role of a code point in an image, if it has one.
pub fn role_of(image: &Image, number: u32) -> Option<Role> {
    image.profile().entries().find(|entry| entry.0 == number).map(|entry| entry.1)
}

/// Whether a blank is White in the image, as it should be: only then it helps.
fn has_blanks(image: &Image) -> bool {
    image.class(' ') == Class::White
}

/// What can be done about a character that can't be seen, if it is one.
fn about_hidden(image: &Image, c: char, byte: usize) -> Option<&'static str> {
    match c {
        '\u{FEFF}' if byte == 0 => Some("a byte order mark: store the file without it"),
        '\0' => Some("a null character: store the file as UTF-8, if it is UTF-16"),
        c if c.is_whitespace() && !place::ends_line(c) && has_blanks(image) => {
            Some("it looks like a blank, and is none in this image: type U+0020")
        }
        c if is_hidden(c) => Some("it can't be seen: take it out"),
        _ => None,
    }
}

/// The line of a profile that lets a character begin an identifier.
fn profile_line(c: char) -> String {
    let points = match c {
        '0'..='9' => "U+0030..U+0039".to_string(),
        c => code_point(c.into()),
    };
    format!("a profile with the line `{points} Start` lets it (`luffinarc help make`)")
}

/// What can be done where no token begins with a character.
pub fn about_character(image: &Image, c: char, byte: usize) -> String {
    let (class, role, profile) = (image.class(c), role_of(image, c.into()), profile_line(c));
    match (class, about_hidden(image, c, byte)) {
        _ if role == Some(Role::Medial) => {
            "a medial stands inside an identifier, with one that may continue it on each side"
                .to_string()
        }
        _ if role == Some(Role::Other) => "the image's profile makes it Other".to_string(),
        (Class::Unassigned, _) if is_noncharacter(c.into()) => {
            "a noncharacter: no version of Unicode will assign it".to_string()
        }
        (Class::Unassigned, _) => {
            let version = image.version();
            format!("Unassigned in the image of version {version}: a newer image may have it")
        }
        (_, Some(help)) => help.to_string(),
        (Class::Nonstart, _) if is_digit(c) => {
            format!("a digit can't begin an identifier in this image: {profile}")
        }
        (Class::Nonstart, _) => format!("it may continue an identifier, not begin one: {profile}"),
        _ => format!("it is in no token of this image: {profile}"),
    }
}

/// What can be done about bytes that are not UTF-8.
pub fn about_bytes(text: &[u8], byte: usize) -> &'static str {
    let is_utf16 = text.starts_with(b"\xFF\xFE") || text.starts_with(b"\xFE\xFF");
    if byte == 0 && is_utf16 {
        "it begins as UTF-16 does: store the file as UTF-8"
    } else {
        "store the file as UTF-8"
    }
}
