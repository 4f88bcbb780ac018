//! The reader that a Rust user would write by hand today: the standard
//! library's UTF-8 check, then a lexer over two-stage tables.

use luffinarc::{
    Class, Kind, Range, Role, HASHTAG_KIND, MAX_ENTRIES, MAX_IMAGE, MAX_RANGES, MAX_TEXT,
    RECORD_WORDS,
};
use std::str::Utf8Error;

const START: u8 = 1;
const CONTINUE: u8 = 2;
const SYNTAX: u8 = 4;
const BLANK: u8 = 8;
const MEDIAL: u8 = 16;
/// Hashtag Continue.
const TAG: u8 = 32;
/// White that ends a line, and white that is a direction mark: they are no blanks.
const LINE_END: u8 = 64;
const MARK: u8 = 128;

/// The signs that begin a hashtag.
pub const SIGNS: [char; 3] = ['#', '\u{FE5F}', '\u{FF03}'];

/// The characters that end a line.
const LINE_ENDS: [char; 7] = ['\n', '\x0B', '\x0C', '\r', '\u{85}', '\u{2028}', '\u{2029}'];

/// The direction marks.
const MARKS: [char; 2] = ['\u{200E}', '\u{200F}'];

/// Why a text is refused.
#[derive(Clone, Copy, Debug, PartialEq, Eq)]
pub enum Refused {
    TextLength,
    /// The place, and the length of the maximal subpart there.
    IllFormed {
        place: usize,
        len: usize,
    },
    Characters(usize),
    /// The records needed.
    Room(usize),
    /// The first mark that parts a token.
    Mark(usize),
}

/// The flags of every code point: a block index and blocks of 256, and the
/// first block again by byte, empty from 80 on; and whether a line end may
/// be in a token that is not of line ends.
pub struct Tables {
    bytes: [u8; 256],
    index: Vec<u16>,
    blocks: Vec<[u8; 256]>,
    ends_in_others: bool,
}

/// The flags of a class and of being medial.
fn flags(class: Class, medial: bool) -> u8 {
    let medial = if medial { MEDIAL } else { 0 };
    match class {
        Class::Start => START | CONTINUE | TAG,
        Class::Nonstart => CONTINUE | TAG,
        Class::Syntax => SYNTAX | medial,
        Class::White => BLANK | medial,
        Class::Unassigned | Class::Other => medial,
    }
}

/// The flags of every code point in one flat table.
fn flat(ranges: &[Range], profile: &[(u32, Role)]) -> Vec<u8> {
    let mut classes = vec![Class::Unassigned; 0x110000];
    for range in ranges {
        classes[range.first as usize..=range.last as usize].fill(range.class);
    }
    let mut all: Vec<u8> = classes.iter().map(|&class| flags(class, false)).collect();
    for &(point, role) in profile {
        all[point as usize] = match role {
            Role::Start => flags(Class::Start, false),
            Role::Nonstart => flags(Class::Nonstart, false),
            Role::Medial => flags(classes[point as usize], true),
            Role::Other => flags(Class::Other, false),
            Role::Hashtag => flags(classes[point as usize], false) | TAG,
        };
    }
    for sign in SIGNS {
        all[sign as usize] &= !TAG;
    }
    let others = LINE_ENDS.map(|end| (end, LINE_END)).into_iter();
    for (c, flag) in others.chain(MARKS.map(|mark| (mark, MARK))) {
        if all[c as usize] & BLANK != 0 {
            all[c as usize] ^= BLANK | flag;
        }
    }
    all
}

/// What the standard library says of an ill-formed text; without a length, all that is left is the subpart.
#[cold]
fn ill_formed(text: &[u8], error: Utf8Error) -> Refused {
    let place = error.valid_up_to();
    Refused::IllFormed { place, len: error.error_len().unwrap_or(text.len() - place) }
}

/// The text, if it is not too long and well-formed.
#[inline(always)]
fn check_text(text: &[u8]) -> Result<&str, Refused> {
    if text.len() > MAX_TEXT {
        return Err(Refused::TextLength);
    }
    std::str::from_utf8(text).map_err(|error| ill_formed(text, error))
}

/// Whether the code point at the byte ends a line; of CR LF the LF does.
#[inline(always)]
fn ends_line(text: &[u8], at: usize) -> bool {
    match text[at..] {
        [b'\r', b'\n', ..] => false,
        [b'\n'..=b'\r', ..] | [0xC2, 0x85, ..] | [0xE2, 0x80, 0xA8 | 0xA9, ..] => true,
        _ => false,
    }
}

/// The number of line ends from a byte to before another.
#[cold]
fn line_ends(text: &[u8], from: usize, to: usize) -> u32 {
    (from..to).filter(|&at| ends_line(text, at)).count() as u32
}

/// A word of 32 bits, little-endian.
pub fn word(bytes: &[u8], at: usize) -> u32 {
    u32::from_le_bytes(bytes[at..at + 4].try_into().unwrap())
}

/// The number of ranges of an accepted image, checked as a Rust user would; nothing for any other.
pub fn check(image: &[u8]) -> Option<usize> {
    if image.len() < 32 || image.len() > MAX_IMAGE || word(image, 8) as usize != image.len() {
        return None;
    }
    let (n, m) = (word(image, 12) as usize, word(image, 20) as usize);
    let entries = 32 + 12 * n.min(MAX_RANGES);
    let fixed = word(image, 0) == 1 && word(image, 28) == 0 && word(image, 16) == 32;
    let counts = n <= MAX_RANGES && m <= MAX_ENTRIES && word(image, 24) as usize == entries;
    if !fixed || !counts || image.len() != entries + 8 * m {
        return None;
    }
    let mut before: Option<(u32, u32)> = None;
    for range in image[32..entries].chunks_exact(12) {
        let (first, last, class) = (word(range, 0), word(range, 4), word(range, 8));
        let good = first <= last && last <= 0x10FFFF && !(first <= 0xDFFF && last >= 0xD800);
        let follows =
            before.map_or(true, |(end, of)| end < first && !(end + 1 == first && of == class));
        if !good || !(1..=5).contains(&class) || !follows {
            return None;
        }
        before = Some((last, class));
    }
    let mut point_before: Option<u32> = None;
    for entry in image[entries..].chunks_exact(8) {
        let (point, role) = (word(entry, 0), word(entry, 4));
        let scalar = char::from_u32(point).is_some();
        if !scalar || !(1..=5).contains(&role) || point_before.map_or(false, |p| p >= point) {
            return None;
        }
        point_before = Some(point);
    }
    Some(n)
}

impl Tables {
    /// From an accepted image's ranges and its profile.
    pub fn new(ranges: &[Range], profile: &[(u32, Role)]) -> Tables {
        let mut blocks: Vec<[u8; 256]> = Vec::new();
        let mut index = Vec::new();
        let flat = flat(ranges, profile);
        for block in flat.chunks_exact(256) {
            let number = blocks.iter().position(|known| known == block).unwrap_or_else(|| {
                blocks.push(block.try_into().unwrap());
                blocks.len() - 1
            });
            index.push(number as u16);
        }
        let mut bytes = [0; 256];
        bytes[..128].copy_from_slice(&blocks[index[0] as usize][..128]);
        let in_others = |&end: &char| flat[end as usize] & (CONTINUE | MEDIAL | SYNTAX) != 0;
        let ends_in_others = LINE_ENDS.iter().any(in_others);
        Tables { bytes, index, blocks, ends_in_others }
    }

    /// The flags of a scalar value.
    #[inline(always)]
    pub fn flags_of(&self, point: u32) -> u8 {
        self.blocks[self.index[(point >> 8) as usize] as usize][(point & 0xFF) as usize]
    }

    /// The flags and length of the code point that begins at the byte; the
    /// text is well-formed there.
    #[inline(always)]
    fn look(&self, text: &[u8], at: usize) -> (u8, usize) {
        let lead = text[at];
        if lead < 0x80 {
            return (self.bytes[lead as usize], 1);
        }
        let low = |i: usize| u32::from(text[at + i] & 0x3F);
        let lead = u32::from(lead);
        let (point, length) = if lead < 0xE0 {
            ((lead & 0x1F) << 6 | low(1), 2)
        } else if lead < 0xF0 {
            ((lead & 0x0F) << 12 | low(1) << 6 | low(2), 3)
        } else {
            ((lead & 0x07) << 18 | low(1) << 12 | low(2) << 6 | low(3), 4)
        };
        (self.flags_of(point), length)
    }

    /// The end of the run, from the byte on, of code points with the flag.
    #[inline(always)]
    fn run(&self, text: &[u8], mut at: usize, flag: u8) -> usize {
        loop {
            while at < text.len() && self.bytes[text[at] as usize] & flag != 0 {
                at += 1;
            }
            if at >= text.len() || text[at] < 0x80 {
                return at;
            }
            let (found, length) = self.look(text, at);
            if found & flag == 0 {
                return at;
            }
            at += length;
        }
    }

    /// The end of the identifier whose first code point ends at the byte.
    #[inline(always)]
    fn identifier(&self, text: &[u8], at: usize) -> usize {
        let mut end = self.run(text, at, CONTINUE);
        while end < text.len() {
            let (found, length) = self.look(text, end);
            if found & MEDIAL == 0 {
                break;
            }
            let group = self.run(text, end + length, CONTINUE);
            if group == end + length {
                break;
            }
            end = group;
        }
        end
    }

    /// The end of the line ends from the byte on, which are added; of CR LF the LF is one.
    #[inline(always)]
    fn line_ends(&self, text: &[u8], mut at: usize, line: &mut u32) -> usize {
        loop {
            while at < text.len() && self.bytes[text[at] as usize] & LINE_END != 0 {
                *line += u32::from(text[at] != b'\r' || text.get(at + 1) != Some(&b'\n'));
                at += 1;
            }
            if at >= text.len() || text[at] < 0x80 {
                return at;
            }
            let (found, length) = self.look(text, at);
            if found & LINE_END == 0 {
                return at;
            }
            *line += 1;
            at += length;
        }
    }

    /// Whether marks, from a byte to before another, part a token; the last identifier before them ends at `name`.
    #[cold]
    fn parts(&self, text: &[u8], name: usize, at: usize, end: usize) -> bool {
        if name > at || end == text.len() {
            return false;
        }
        let joins = |flags: u8| flags & (SYNTAX | MEDIAL) == SYNTAX | MEDIAL;
        let (after, length) = self.look(text, end);
        if name < at {
            // A medial may stand between the identifier and the marks.
            let (before, length) = self.look(text, name);
            return joins(before) && name + length == at && after & START != 0;
        }
        let next = end + length;
        after & START != 0
            || joins(after) && next < text.len() && self.look(text, next).0 & CONTINUE != 0
    }

    /// Hands each token's kind, start, end and line, if lines are counted, to the taker.
    #[inline(always)]
    fn lex<const LINES: bool>(
        &self,
        text: &[u8],
        mut take: impl FnMut(Kind, u32, u32, u32),
    ) -> Result<(), Refused> {
        check_text(text)?;
        let (mut at, mut line) = (0, 1);
        let (mut name, mut parting) = (usize::MAX, None);
        while at < text.len() {
            let (found, length) = self.look(text, at);
            let mut next = line;
            let (kind, end) = if found & START != 0 {
                name = self.identifier(text, at + length);
                (Kind::Identifier, name)
            } else if found & BLANK != 0 {
                (Kind::Blank, self.run(text, at + length, BLANK))
            } else if found & SYNTAX != 0 {
                (Kind::Syntax, at + length)
            } else if found & LINE_END != 0 && LINES {
                (Kind::LineEnd, self.line_ends(text, at, &mut next))
            } else if found & LINE_END != 0 {
                (Kind::LineEnd, self.run(text, at + length, LINE_END))
            } else if found & MARK != 0 {
                let end = self.run(text, at + length, MARK);
                if parting.is_none() && self.parts(text, name, at, end) {
                    parting = Some(at);
                }
                (Kind::Mark, end)
            } else {
                return Err(Refused::Characters(at));
            };
            if LINES && self.ends_in_others && kind != Kind::LineEnd {
                next += line_ends(text, at, end);
            }
            take(kind, at as u32, end as u32, line);
            (at, line) = (end, next);
        }
        parting.map_or(Ok(()), |at| Err(Refused::Mark(at)))
    }

    /// Counts the text's tokens.
    pub fn count(&self, text: &[u8]) -> Result<usize, Refused> {
        let mut count = 0;
        self.lex::<false>(text, |_, _, _, _| count += 1)?;
        Ok(count)
    }

    /// Lists the text's tokens, four words each, in place of what the list
    /// held; after a refusal it holds the tokens found before it was known.
    pub fn list(&self, text: &[u8], list: &mut Vec<u32>) -> Result<usize, Refused> {
        list.clear();
        self.lex::<true>(text, |kind, start, end, line| {
            list.extend_from_slice(&[kind.number(), start, end, line])
        })?;
        Ok(list.len() / RECORD_WORDS)
    }

    /// Whether a character is hashtag Continue.
    #[inline(always)]
    fn tags(&self, c: Option<char>) -> bool {
        c.map_or(false, |c| self.flags_of(c.into()) & TAG != 0)
    }

    /// Lists the text's hashtags in the words, four each, and counts them. They are found first: only the characters
    /// beside a sign are looked up, and those of a tag. Line ends are found in the same search.
    pub fn hashtags(&self, text: &[u8], words: &mut [u32]) -> Result<usize, Refused> {
        let text = check_text(text)?;
        let mut found: Vec<[usize; 3]> = Vec::new();
        let mut line = 1;
        for (start, c) in text.char_indices() {
            match c {
                '\n' | '\x0B' | '\x0C' | '\u{85}' | '\u{2028}' | '\u{2029}' => line += 1,
                '\r' => line += usize::from(text.as_bytes().get(start + 1) != Some(&b'\n')),
                '#' | '\u{FE5F}' | '\u{FF03}' => {
                    let from = start + c.len_utf8();
                    if self.tags(text[from..].chars().next())
                        && !self.tags(text[..start].chars().next_back())
                    {
                        found.push([start, self.run(text.as_bytes(), from, TAG), line]);
                    }
                }
                _ => {}
            }
        }
        if words.len() / RECORD_WORDS < found.len() {
            return Err(Refused::Room(found.len()));
        }
        for (record, &[start, end, line]) in words.chunks_exact_mut(RECORD_WORDS).zip(&found) {
            record.copy_from_slice(&[HASHTAG_KIND, start as u32, end as u32, line as u32]);
        }
        Ok(found.len())
    }
}
