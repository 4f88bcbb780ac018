//! What is wrong with an image that is refused, in words.

use crate::text::{code_point, counted, thousands};
use luffinarc::{Class, Refusal, Role, MAX_ENTRIES, MAX_IMAGE, MAX_RANGES};

/// The bytes of a header, of a range and of an entry.
const HEADER: usize = 32;
const RANGE: usize = 12;
const ENTRY: usize = 8;

/// The little-endian word at a byte.
fn word(bytes: &[u8], at: usize) -> Option<u32> {
    let word: [u8; 4] = bytes.get(at..at + 4)?.try_into().ok()?;
    Some(u32::from_le_bytes(word))
}

fn count(number: u32) -> String {
    thousands(number as usize)
}

/// Why the length is wrong.
fn of_length(bytes: &[u8]) -> String {
    let length = counted(bytes.len(), "byte", "bytes");
    match word(bytes, 8) {
        _ if bytes.len() > MAX_IMAGE => {
            format!("the file has more than {} bytes, the most of an image", thousands(MAX_IMAGE))
        }
        Some(total) if bytes.len() >= HEADER => {
            format!("the file has {length}, and its header says {}", count(total))
        }
        _ => format!("the file has {length}, and an image has {HEADER} at least"),
    }
}

/// What is wrong in the header.
fn of_header(bytes: &[u8]) -> Vec<String> {
    let at = |at| word(bytes, at).unwrap_or(0);
    let (ranges, entries) = (at(12), at(20));
    let mut wrong = Vec::new();
    let mut test = |holds: bool, what: String| {
        if !holds {
            wrong.push(what);
        }
    };
    test(at(0) == 1, format!("the format is {}, not 1", count(at(0))));
    test(
        ranges as usize <= MAX_RANGES,
        format!("{} ranges, at most {} may be", count(ranges), thousands(MAX_RANGES)),
    );
    test(
        entries as usize <= MAX_ENTRIES,
        format!("{} profile entries, at most {MAX_ENTRIES} may be", count(entries)),
    );
    let past = HEADER as u64 + RANGE as u64 * u64::from(ranges);
    let total = past + ENTRY as u64 * u64::from(entries);
    test(at(16) == HEADER as u32, format!("the ranges' offset is {}, not {HEADER}", count(at(16))));
    test(
        u64::from(at(24)) == past,
        format!("the profile's offset is {}, not {}", count(at(24)), thousands(past as usize)),
    );
    test(
        u64::from(at(8)) == total,
        format!("the total length is {}, not {}", count(at(8)), thousands(total as usize)),
    );
    test(at(28) == 0, format!("the last word of the header is {}, not 0", count(at(28))));
    wrong
}

/// A range in words: first, last and class.
fn range_words(bytes: &[u8], index: usize) -> Option<[u32; 3]> {
    let at = HEADER + RANGE * index;
    Some([word(bytes, at)?, word(bytes, at + 4)?, word(bytes, at + 8)?])
}

/// Why a range is bad.
fn of_range(bytes: &[u8], index: usize) -> Option<String> {
    let [first, last, class] = range_words(bytes, index)?;
    let before = index.checked_sub(1).and_then(|index| range_words(bytes, index));
    let named = Class::from_number(class).filter(|&class| class != Class::Unassigned);
    let why = if first > last {
        "its last code point is before its first".to_string()
    } else if last > 0x10FFFF {
        "it ends after U+10FFFF".to_string()
    } else if first <= 0xDFFF && last >= 0xD800 {
        "it holds surrogates".to_string()
    } else if named.is_none() {
        format!("its class is {class}, not 1 to 5")
    } else if before.map_or(false, |[_, end, _]| first <= end) {
        "it does not begin after the range before it".to_string()
    } else {
        "it touches the range before it, which has the same class".to_string()
    };
    let (first, last) = (code_point(first), code_point(last));
    Some(format!("range {index}, {first} to {last} of class {class}: {why}"))
}

/// Why a profile entry is bad.
fn of_entry(bytes: &[u8], index: usize) -> Option<String> {
    let start = word(bytes, 24)? as usize;
    let entry = |index: usize| {
        let at = start + ENTRY * index;
        Some((word(bytes, at)?, word(bytes, at + 4)?))
    };
    let (point, role) = entry(index)?;
    let why = if char::from_u32(point).is_none() {
        "it is no scalar value".to_string()
    } else if Role::from_number(role).is_none() {
        format!("its role is {role}, not 1 to 5")
    } else {
        "it is not above the entry before it".to_string()
    };
    Some(format!("entry {index}, {} with role {role}: {why}", code_point(point)))
}

/// What is wrong with a refused image: a line for each fault that is found.
pub fn notes(refusal: Refusal, bytes: &[u8]) -> Vec<String> {
    let mut notes: Vec<String> = match refusal {
        Refusal::Length => vec![of_length(bytes)],
        Refusal::Header => of_header(bytes),
        Refusal::Range { index } => of_range(bytes, index).into_iter().collect(),
        Refusal::Entry { index } => of_entry(bytes, index).into_iter().collect(),
        _ => Vec::new(),
    };
    if matches!(refusal, Refusal::Length | Refusal::Header) && word(bytes, 0) != Some(1) {
        notes.push("a class image begins with the word 1: is this file one?".to_string());
    }
    notes
}
