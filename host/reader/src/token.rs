//! Tokens: count, list, one token at a place, and a token's bytes.

use crate::image::{parse, Image};
use crate::line::{line_ends, line_of, LINE_ENDS};
use crate::names::{class, kind, role};
use crate::record::{write_records, Record};
use crate::refusal::Refusal;
use crate::utf8::{decode, maximal_subpart, Placed};

/// The most bytes of a text.
pub const MAX_TEXT: usize = 1_048_576;

/// The direction marks.
pub const MARKS: [u32; 2] = [0x200E, 0x200F];

/// A token at a place: its kind, its first byte and one past its last.
#[derive(Clone, Copy, Debug, PartialEq, Eq)]
pub struct Token {
    pub kind: u32,
    pub start: usize,
    pub end: usize,
}

/// A code point of the text as the grammar sees it.
#[derive(Clone, Copy)]
struct Unit {
    point: u32,
    start: usize,
    end: usize,
    class: u32,
    medial: bool,
}

impl Unit {
    fn is_continue(&self) -> bool {
        self.class == class::START || self.class == class::NONSTART
    }

    /// The kind of the token that begins with it, if one does.
    fn kind(&self) -> Option<u32> {
        match self.class {
            class::START => Some(kind::IDENTIFIER),
            class::SYNTAX => Some(kind::SYNTAX),
            class::WHITE if LINE_ENDS.contains(&self.point) => Some(kind::LINE_END),
            class::WHITE if MARKS.contains(&self.point) => Some(kind::MARK),
            class::WHITE => Some(kind::BLANK),
            _ => None,
        }
    }
}

/// The units of the code points.
fn units_of(image: &Image, points: &[Placed]) -> Vec<Unit> {
    let unit = |p: &Placed| Unit {
        point: p.point,
        start: p.start,
        end: p.end,
        class: image.class(p.point),
        medial: image.role(p.point) == role::MEDIAL,
    };
    points.iter().map(unit).collect()
}

/// The length of the run of units, from the front, for which the test holds.
fn run(units: &[Unit], test: impl Fn(&Unit) -> bool) -> usize {
    units.iter().take_while(|unit| test(unit)).count()
}

/// Start Continue* (Medial Continue+)*: the longest from the front, in units.
fn identifier(units: &[Unit]) -> usize {
    let mut length = 1 + run(&units[1..], Unit::is_continue);
    while length < units.len() && units[length].medial {
        let group = run(&units[length + 1..], Unit::is_continue);
        if group == 0 {
            break;
        }
        length += 1 + group;
    }
    length
}

/// The kind and length in units of the longest token from the front.
fn longest(units: &[Unit]) -> Option<(u32, usize)> {
    let kind = units.first()?.kind()?;
    let length = match kind {
        kind::IDENTIFIER => identifier(units),
        kind::SYNTAX => 1,
        white => run(units, |unit| unit.kind() == Some(white)),
    };
    Some((kind, length))
}

/// The longest tokens one after the other, in a text of these units alone; and the place after them, where no token
/// begins.
fn divide(units: &[Unit]) -> (Vec<Token>, usize) {
    let (mut tokens, mut rest, mut start) = (Vec::new(), units, 0);
    while let Some((kind, length)) = longest(rest) {
        let (token, others) = rest.split_at(length);
        let end = start + token.iter().map(|unit| unit.end - unit.start).sum::<usize>();
        tokens.push(Token { kind, start, end });
        (rest, start) = (others, end);
    }
    (tokens, start)
}

/// The tokens of the text with one token taken out of it.
fn divide_without(units: &[Unit], token: Token) -> Vec<Token> {
    let stays = |unit: &&Unit| unit.end <= token.start || token.end <= unit.start;
    let rest: Vec<Unit> = units.iter().filter(stays).copied().collect();
    divide(&rest).0
}

/// True for the kinds of white space.
fn is_white(kind: u32) -> bool {
    [kind::BLANK, kind::LINE_END, kind::MARK].contains(&kind)
}

/// The first mark between two tokens that are no white space such that no token ends where it stood once it is taken
/// out.
fn parting_mark(units: &[Unit], tokens: &[Token]) -> Option<Token> {
    let parts = |three: &&[Token]| {
        let [before, mark, after] = [three[0], three[1], three[2]];
        let between = mark.kind == kind::MARK && !is_white(before.kind) && !is_white(after.kind);
        between && divide_without(units, mark).iter().all(|token| token.end != mark.start)
    };
    tokens.windows(3).find(parts).map(|three| three[1])
}

/// Refusal 6 at a place where no sequence begins.
fn ill_formed(text: &[u8], place: usize) -> Refusal {
    let len = maximal_subpart(&text[place..]);
    Refusal::IllFormed { place: place as u64, len: len as u64 }
}

/// The code points of a whole text, or the first of refusals 5 and 6.
pub(crate) fn whole_text(text: &[u8]) -> Result<Vec<Placed>, Refusal> {
    if text.len() > MAX_TEXT {
        return Err(Refusal::TextLength);
    }
    let (points, end) = decode(text);
    if end < text.len() {
        return Err(ill_formed(text, end));
    }
    Ok(points)
}

/// The text's tokens, or the first of refusals 5, 6, 7 and 14.
fn tokens(image: &Image, text: &[u8]) -> Result<Vec<Record>, Refusal> {
    let points = whole_text(text)?;
    let (units, ends) = (units_of(image, &points), line_ends(&points));
    let (tokens, place) = divide(&units);
    if place < text.len() {
        return Err(Refusal::Characters(place as u64));
    }
    if let Some(mark) = parting_mark(&units, &tokens) {
        return Err(Refusal::Mark(mark.start as u64));
    }
    let record = |token: &Token| {
        let (start, end) = (token.start as u32, token.end as u32);
        [token.kind, start, end, line_of(&ends, token.start)]
    };
    Ok(tokens.iter().map(record).collect())
}

/// Counts the text's tokens.
pub fn count(image: &[u8], text: &[u8]) -> Result<usize, Refusal> {
    Ok(tokens(&parse(image)?, text)?.len())
}

/// Writes the text's tokens to the lent words, a record each, and counts them.
pub fn list(image: &[u8], text: &[u8], words: &mut [u32]) -> Result<usize, Refusal> {
    write_records(&tokens(&parse(image)?, text)?, words)
}

/// The token at a place; nothing if the place is the text's end.
pub fn at(image: &[u8], text: &[u8], place: usize) -> Result<Option<Token>, Refusal> {
    let image = parse(image)?;
    if text.len() > MAX_TEXT {
        return Err(Refusal::TextLength);
    }
    if place > text.len() {
        return Err(Refusal::Shape);
    }
    let (points, q) = decode(&text[place..]);
    if q == 0 && place < text.len() {
        return Err(ill_formed(text, place));
    }
    if place == text.len() {
        return Ok(None);
    }
    let units = units_of(&image, &points);
    match longest(&units) {
        None => Err(Refusal::Characters(place as u64)),
        Some((kind, length)) => {
            Ok(Some(Token { kind, start: place, end: place + units[length - 1].end }))
        }
    }
}

/// The part of the text from start to end.
pub fn part(text: &[u8], start: usize, end: usize) -> Result<&[u8], Refusal> {
    if start > end || end > text.len() {
        return Err(Refusal::Shape);
    }
    Ok(&text[start..end])
}
