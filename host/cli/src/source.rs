//! A line of a text with a part of it underlined, as compilers show it.

use crate::appearance::{is_hidden, width};
use crate::place::{self, ends_line};
use crate::text::{code_point, glyph};
use std::ops::Range;

/// The most columns shown before and after what is underlined, and the most characters or bytes of each.
const BEFORE: usize = 60;
const AFTER: usize = 40;

/// The most characters or bytes that are underlined.
const MARKED: usize = 20;

/// A piece of a line as it is shown: a character, or a byte that is in none.
struct Piece {
    shown: String,
    columns: usize,
}

/// The piece of a character.
fn of_char(c: char, is_marked: bool) -> Piece {
    let shown = match c {
        '\t' => "    ".to_string(),
        c if is_hidden(c) => format!("<{}>", code_point(c.into())),
        c if is_marked => glyph(c).unwrap_or_else(|| c.to_string()),
        c => c.to_string(),
    };
    let columns = shown.chars().map(width).sum();
    Piece { shown, columns }
}

/// The character at the front of bytes, or the byte there that is in none; and how many bytes it has.
fn front(bytes: &[u8]) -> Option<(Result<char, u8>, usize)> {
    let first = *bytes.first()?;
    let whole = (1..=4.min(bytes.len())).find_map(|n| std::str::from_utf8(&bytes[..n]).ok());
    match whole.and_then(|text| text.chars().next()) {
        Some(c) => Some((Ok(c), c.len_utf8())),
        None => Some((Err(first), 1)),
    }
}

/// The pieces at the front of bytes, up to a line end: at most so many, with at most so many columns. Whether there are
/// more of them comes last.
fn pieces(
    mut bytes: &[u8],
    (most, columns): (usize, usize),
    is_marked: bool,
) -> (Vec<Piece>, bool) {
    let (mut found, mut used) = (Vec::new(), 0);
    while let Some((character, length)) = front(bytes) {
        if !is_marked && character.map_or(false, ends_line) {
            break;
        }
        let piece = match character {
            Ok(c) => of_char(c, is_marked),
            Err(byte) => Piece { shown: format!("<{byte:02X}>"), columns: 4 },
        };
        used += piece.columns;
        if found.len() == most || used > columns {
            return (found, true);
        }
        found.push(piece);
        bytes = &bytes[length..];
    }
    (found, false)
}

/// The last pieces of a well-formed text, in their order, and whether there are more before them.
fn last_pieces(text: &str) -> (Vec<Piece>, bool) {
    let mut used = 0;
    let fits = |piece: &Piece| {
        used += piece.columns;
        used <= BEFORE
    };
    let last = text.chars().rev().take(BEFORE).map(|c| of_char(c, false)).take_while(fits);
    let mut found: Vec<Piece> = last.collect();
    found.reverse();
    let is_cut = text.chars().rev().nth(found.len()).is_some();
    (found, is_cut)
}

/// The line, and what is written below it: the underlining after as many columns as stand before what is marked.
pub struct Underlined {
    pub line: String,
    pub blanks: usize,
    pub carets: usize,
}

/// Shows the line that begins at `start`, with the marked bytes underlined; a long line is cut, and `…` tells it. What
/// stands before the marked bytes is well-formed.
pub fn underline(text: &[u8], start: usize, marked: Range<usize>) -> Underlined {
    let (before, cut_before) = last_pieces(place::well_formed_front(&text[start..marked.start]));
    let is_end = front(&text[marked.start..]).map_or(false, |(c, _)| c.map_or(false, ends_line));
    let (under, cut_under) = pieces(&text[marked.clone()], (MARKED, usize::MAX), true);
    let rest = if is_end || cut_under { &[] } else { &text[marked.end..] };
    let (after, cut_after) = pieces(rest, (AFTER, AFTER), false);
    let join = |pieces: &[Piece]| pieces.iter().map(|p| p.shown.as_str()).collect::<String>();
    let columns = |pieces: &[Piece]| pieces.iter().map(|p| p.columns).sum::<usize>();
    let dots = |is_cut: bool| if is_cut { "…" } else { "" };
    let end = dots(cut_under || cut_after);
    let (line, first) = (join(&under) + &join(&after) + end, dots(cut_before));
    Underlined {
        line: format!("{first}{}{line}", join(&before)),
        blanks: usize::from(cut_before) + columns(&before),
        carets: columns(&under).max(1),
    }
}
