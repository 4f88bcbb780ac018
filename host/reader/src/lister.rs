//! The programs. The token lister: an image and right after it a text, as one input. The change lister: an older image
//! and right after it a newer one.

use crate::changes::changes_of;
use crate::image::{parse, HEADER_BYTES, MAX_IMAGE};
use crate::names::kind;
use crate::record::RECORD_WORDS;
use crate::refusal::{PairRefusal, Refusal};
use crate::token::{count, list};

/// The most bytes of a text that the lister reads.
pub const MAX_SCRIPT: usize = 8192;

/// Cuts the input where the image's total length says.
fn cut(input: &[u8]) -> Result<(&[u8], &[u8]), Refusal> {
    if input.len() < HEADER_BYTES {
        return Err(Refusal::Length);
    }
    let total = u32::from_le_bytes([input[8], input[9], input[10], input[11]]) as usize;
    if !(HEADER_BYTES..=MAX_IMAGE).contains(&total) || total > input.len() {
        return Err(Refusal::Length);
    }
    Ok(input.split_at(total))
}

fn listed(input: &[u8]) -> Result<Vec<u32>, Refusal> {
    let (image, text) = cut(input)?;
    parse(image)?;
    if text.len() > MAX_SCRIPT {
        return Err(Refusal::TextLength);
    }
    let mut words = vec![0; RECORD_WORDS * count(image, text)?];
    list(image, text, &mut words)?;
    Ok(words)
}

fn kind_name(kind: u32) -> &'static str {
    match kind {
        kind::IDENTIFIER => "identifier",
        kind::SYNTAX => "syntax",
        kind::BLANK => "whitespace",
        kind::LINE_END => "lineend",
        kind::MARK => "mark",
        _ => unreachable!("no kind has the number {kind}"),
    }
}

/// The lister's whole output.
pub fn lister(input: &[u8]) -> String {
    let words = match listed(input) {
        Ok(words) => words,
        Err(refusal) => return format!("{refusal}\n"),
    };
    let mut output = format!("tokens {}\n", words.len() / RECORD_WORDS);
    for token in words.chunks(RECORD_WORDS) {
        let (kind, line) = (kind_name(token[0]), token[3]);
        output += &format!("{kind} {} {} {line}\n", token[1], token[2]);
    }
    output
}

/// What the change lister writes after `refused`: which image, the number and what it carries.
fn told(refusal: PairRefusal) -> String {
    let (which, refusal) = match refusal {
        PairRefusal::Older(refusal) => ("older", refusal),
        PairRefusal::Newer(refusal) => ("newer", refusal),
        PairRefusal::Pair(_) => unreachable!("a list has all the room that it needs"),
    };
    refusal.to_string().replace("refused", &format!("refused {which}"))
}

/// The change lister's whole output.
pub fn change_lister(input: &[u8]) -> String {
    let cut = cut(input).map_err(PairRefusal::Older);
    let (runs, entries) = match cut.and_then(|(older, newer)| changes_of(older, newer)) {
        Ok(lists) => lists,
        Err(refusal) => return format!("{}\n", told(refusal)),
    };
    let mut output = format!("changes {} {}\n", runs.len(), entries.len());
    for [first, last, older, newer] in runs {
        output += &format!("class {first} {last} {older} {newer}\n");
    }
    for [point, older, newer] in entries {
        output += &format!("role {point} {older} {newer}\n");
    }
    output
}
