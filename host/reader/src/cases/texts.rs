//! Made texts: of tokens, with hashtags, of any bytes, damaged, long.

use super::images::{ABOUT_MARKS, EDGES};
use super::Rng;
use crate::hashtag::{is_hashtag_continue, SIGNS};
use crate::image::Image;
use crate::names::class::{NONSTART, OTHER, START, SYNTAX, UNASSIGNED, WHITE};
use crate::names::role;
use crate::token::{MARKS, MAX_TEXT};
use crate::utf8::is_scalar;

/// Sequences that Table 3-7 does not have.
const ILL_FORMED: [&[u8]; 16] = [
    &[0x80],
    &[0xBF],
    &[0xC0, 0x80],
    &[0xC1, 0xBF],
    &[0xC3],
    &[0xE0, 0x80, 0x80],
    &[0xE0, 0x9F, 0xBF],
    &[0xE2, 0x82],
    &[0xED, 0xA0, 0x80],
    &[0xED, 0xBF, 0xBF],
    &[0xF0, 0x8F, 0xBF, 0xBF],
    &[0xF0, 0x9E, 0xA4],
    &[0xF4, 0x90, 0x80, 0x80],
    &[0xF5, 0x80, 0x80, 0x80],
    &[0xFE],
    &[0xFF],
];

/// Line ends as texts have them, one or more together, CR LF more often.
const LINE_ENDS: [&[u32]; 12] = [
    &[0x0A],
    &[0x0B],
    &[0x0C],
    &[0x0D],
    &[0x85],
    &[0x2028],
    &[0x2029],
    &[0x0D, 0x0A],
    &[0x0D, 0x0A],
    &[0x0A, 0x0D],
    &[0x0D, 0x0D, 0x0A],
    &[0x0D, 0x0A, 0x0A],
];

/// Code points of an image, by what they are after the profile; `whites` without marks.
struct Palette {
    starts: Vec<u32>,
    continues: Vec<u32>,
    syntaxes: Vec<u32>,
    whites: Vec<u32>,
    marks: Vec<u32>,
    begins: Vec<u32>,
    medials: Vec<u32>,
    others: Vec<u32>,
    hashtags: Vec<u32>,
}

/// Code points worth trying: of some ranges, beside them, of the profile.
fn candidates(rng: &mut Rng, image: &Image) -> Vec<u32> {
    let mut points = EDGES.to_vec();
    points.extend(image.profile.entries().iter().map(|entry| entry.0));
    let step = 1 + image.ranges.len() / 40;
    for range in image.ranges.iter().step_by(step) {
        let inside = range.first + rng.below((range.last - range.first + 1) as usize) as u32;
        points.extend([
            range.first,
            inside,
            range.last,
            range.last + 1,
            range.first.saturating_sub(1),
        ]);
    }
    points.retain(|&point| is_scalar(point));
    points
}

fn palette(rng: &mut Rng, image: &Image) -> Palette {
    let points = candidates(rng, image);
    let with = |test: &dyn Fn(u32) -> bool| -> Vec<u32> {
        points.iter().copied().filter(|&point| test(point)).collect()
    };
    let of = |classes: &[u32]| with(&|point| classes.contains(&image.class(point)));
    Palette {
        starts: of(&[START]),
        continues: of(&[START, NONSTART]),
        syntaxes: of(&[SYNTAX]),
        whites: with(&|point| image.class(point) == WHITE && !MARKS.contains(&point)),
        marks: with(&|point| image.class(point) == WHITE && MARKS.contains(&point)),
        begins: of(&[START, SYNTAX, WHITE]),
        others: of(&[UNASSIGNED, OTHER, NONSTART]),
        medials: with(&|point| image.role(point) == role::MEDIAL),
        hashtags: with(&|point| is_hashtag_continue(image, point)),
    }
}

fn push(text: &mut Vec<u8>, point: u32) {
    let c = char::from_u32(point).unwrap();
    text.extend_from_slice(c.encode_utf8(&mut [0; 4]).as_bytes());
}

/// Adds so many code points of the list, none if it is empty.
fn push_from(rng: &mut Rng, text: &mut Vec<u8>, list: &[u32], times: usize) {
    if !list.is_empty() {
        (0..times).for_each(|_| push(text, *rng.pick(list)));
    }
}

/// Adds line ends, if the list has all their code points.
fn push_line_end(rng: &mut Rng, text: &mut Vec<u8>, list: &[u32]) {
    let points = *rng.pick(&LINE_ENDS);
    if points.iter().all(|point| list.contains(point)) {
        points.iter().for_each(|&point| push(text, point));
    }
}

fn push_identifier(rng: &mut Rng, text: &mut Vec<u8>, palette: &Palette) {
    push_from(rng, text, &palette.starts, 1);
    let more = if palette.starts.is_empty() { 0 } else { rng.below(5) };
    push_from(rng, text, &palette.continues, more);
    if more > 0 {
        push_line_end(rng, text, &palette.continues);
    }
    while rng.once_in(2) && more > 0 {
        push_from(rng, text, &palette.medials, 1);
        let group = 1 + rng.below(3);
        push_from(rng, text, &palette.continues, group);
    }
}

/// Adds marks, at times right after or before a medial.
fn push_marks(rng: &mut Rng, text: &mut Vec<u8>, palette: &Palette) {
    let (times, medial) = (1 + rng.below(2), rng.below(5));
    push_from(rng, text, &palette.medials, usize::from(medial == 0));
    push_from(rng, text, &palette.marks, times);
    push_from(rng, text, &palette.medials, usize::from(medial == 1));
}

/// A text mostly of tokens; a character may be one that refuses it, or a mark.
pub fn token_text(rng: &mut Rng, image: &Image, pieces: usize) -> Vec<u8> {
    let palette = palette(rng, image);
    let bad = if rng.once_in(4) { 8 } else { usize::MAX };
    let marked = rng.once_in(3);
    let mut text = Vec::new();
    for _ in 0..pieces {
        let times = 1 + rng.below(3);
        match rng.below(if marked { 12 } else { 10 }) {
            0..=3 => push_identifier(rng, &mut text, &palette),
            4 => push_from(rng, &mut text, &palette.syntaxes, 1),
            5 | 6 => push_from(rng, &mut text, &palette.whites, times),
            7 => push_line_end(rng, &mut text, &palette.whites),
            8 => push_line_end(rng, &mut text, &palette.begins),
            9 if rng.once_in(3) => push_from(rng, &mut text, &palette.medials, 1),
            9 => {}
            _ => push_marks(rng, &mut text, &palette),
        }
        if rng.once_in(bad) {
            push_from(rng, &mut text, &palette.others, 1);
        }
    }
    text
}

/// A text of tags and of what may stand about them.
pub fn hashtag_text(rng: &mut Rng, image: &Image, pieces: usize) -> Vec<u8> {
    let palette = palette(rng, image);
    let mut text = Vec::new();
    for _ in 0..pieces {
        let (signs, length) = (1 + rng.below(3) / 2, 1 + rng.below(4));
        match rng.below(11) {
            0..=3 => {
                push_from(rng, &mut text, &SIGNS, signs);
                push_from(rng, &mut text, &palette.hashtags, length);
                push_line_end(rng, &mut text, &palette.hashtags);
            }
            4 => push_from(rng, &mut text, &SIGNS, signs),
            5 => push_from(rng, &mut text, &palette.hashtags, length),
            6 => push_from(rng, &mut text, &palette.medials, 1),
            7 => push_from(rng, &mut text, &palette.others, 1),
            8 => push_from(rng, &mut text, &palette.syntaxes, 1),
            9 => push_line_end(rng, &mut text, &EDGES),
            _ if rng.once_in(6) => push_from(rng, &mut text, &palette.marks, 1),
            _ => push_from(rng, &mut text, &palette.whites, length),
        }
    }
    text
}

/// A short text of the code points about marks, of letters, full stops and marks more often; damaged at times.
pub fn marked_text(rng: &mut Rng) -> Vec<u8> {
    const MOSTLY: [u32; 5] = [0x2E, 0x61, 0x61, 0x200E, 0x200F];
    let (length, any) = (1 + rng.below(9), 2 + rng.below(3));
    let mut text = Vec::new();
    for _ in 0..length {
        let of_all = rng.pick(&ABOUT_MARKS).0;
        push(&mut text, if rng.once_in(any) { of_all } else { *rng.pick(&MOSTLY) });
    }
    if rng.once_in(50) {
        text = damage(rng, text);
    }
    text
}

/// At most so many bytes of any kind.
pub fn random_bytes(rng: &mut Rng, most: usize) -> Vec<u8> {
    let length = rng.below(most + 1);
    (0..length).map(|_| rng.word() as u8).collect()
}

/// Damages the UTF-8 of a text at a random place.
fn damage(rng: &mut Rng, mut text: Vec<u8>) -> Vec<u8> {
    let place = rng.below(text.len() + 1);
    match rng.below(5) {
        0 => text.truncate(place),
        1 if place < text.len() => text[place] = rng.word() as u8,
        2 if place < text.len() => drop(text.remove(place)),
        3 => text.insert(place, rng.word() as u8),
        _ => drop(text.splice(place..place, rng.pick(&ILL_FORMED).iter().copied())),
    }
    text
}

/// The piece again and again, about as often as a text has room for it. Only the last has its marks, since the reader
/// divides the whole text again for each.
fn repeated(rng: &mut Rng, piece: Vec<u8>) -> Vec<u8> {
    let last = String::from_utf8(piece).expect("a piece is well-formed") + " ";
    let plain: String = last.chars().filter(|&c| !MARKS.contains(&c.into())).collect();
    let length = MAX_TEXT + 2 - rng.below(4);
    let mut text = plain.repeat((length - last.len()) / plain.len()).into_bytes();
    text.extend(last.bytes());
    text.resize(length, b' ');
    if rng.once_in(4) {
        text[length - 1] = 0xFF;
    }
    text
}

/// A text of so many pieces by the maker, or another: empty, of any bytes, damaged, long.
fn varied(
    rng: &mut Rng,
    image: &Image,
    make: impl Fn(&mut Rng, &Image, usize) -> Vec<u8>,
) -> Vec<u8> {
    let pieces = 1 + rng.below(16);
    match rng.below(16) {
        0 => vec![],
        1 => random_bytes(rng, 24),
        2 | 3 => {
            let text = make(rng, image, 12);
            damage(rng, text)
        }
        4 if rng.once_in(12) && image.ranges.len() < 100 => {
            let piece = make(rng, image, 40);
            repeated(rng, piece)
        }
        5 => make(rng, image, 200),
        _ => make(rng, image, pieces),
    }
}

/// A text for the calls on tokens.
pub fn text(rng: &mut Rng, image: &Image) -> Vec<u8> {
    varied(rng, image, token_text)
}

/// A text for the list of hashtags.
pub fn text_with_hashtags(rng: &mut Rng, image: &Image) -> Vec<u8> {
    let make = if rng.once_in(5) { token_text } else { hashtag_text };
    varied(rng, image, make)
}
