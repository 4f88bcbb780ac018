//! Tokens of a text under an accepted image.

use crate::calls::{self, Answer};
use crate::image::Image;
use crate::names::Kind;
use crate::record::{record, whole_list, RECORD_WORDS};
use crate::refusal::{result, Refusal};
use std::iter::FusedIterator;
use std::ops::Range;

/// The most bytes that a text may have.
pub const MAX_TEXT: usize = 1_048_576;

/// The kind with a number that the library gave.
fn given_kind(number: u32) -> Kind {
    Kind::from_number(number).expect("the library gives kinds 1 to 5")
}

/// A token of a text: its kind, its bytes' places, and its line.
#[derive(Clone, Debug, PartialEq, Eq, Hash)]
pub struct Token {
    /// The kind.
    pub kind: Kind,
    /// The first byte, and one past the last.
    pub range: Range<usize>,
    /// The line of the first byte, counted from 1.
    ///
    /// A line ends with U+000A, U+000B, U+000C, U+000D, U+0085, U+2028 or U+2029, whatever its class or role, and
    /// inside an identifier too; U+000D with U+000A right after it ends one line, at the U+000A.
    pub line: u32,
}

/// The token at a place, taken by itself: its kind and its bytes' places. It has no line, since the text before the
/// place is not read.
#[derive(Clone, Debug, PartialEq, Eq, Hash)]
pub struct Taken {
    /// The kind.
    pub kind: Kind,
    /// The first byte, which is the place, and one past the last.
    pub range: Range<usize>,
}

/// The tokens of a text, in their order. They cover it without gaps.
#[derive(Clone, Debug)]
pub struct Tokens {
    words: Vec<u32>,
    next: usize,
}

impl Iterator for Tokens {
    type Item = Token;

    fn next(&mut self) -> Option<Token> {
        let (kind, range, line) = record(self.words.get(self.next..self.next + RECORD_WORDS)?);
        self.next += RECORD_WORDS;
        Some(Token { kind: given_kind(kind), range, line })
    }

    fn size_hint(&self) -> (usize, Option<usize>) {
        let left = (self.words.len() - self.next) / RECORD_WORDS;
        (left, Some(left))
    }
}

impl ExactSizeIterator for Tokens {}

impl FusedIterator for Tokens {}

impl Image<'_> {
    /// Counts the tokens of a text.
    ///
    /// # Errors
    ///
    /// [`Refusal::TextLength`], [`Refusal::IllFormed`], [`Refusal::Characters`] or [`Refusal::Mark`], the first that
    /// applies.
    pub fn count<T: AsRef<[u8]> + ?Sized>(&self, text: &T) -> Result<usize, Refusal> {
        let (text, mut answer) = (text.as_ref(), Answer::default());
        // Safety: the image was accepted.
        let number = unsafe { calls::count_checked(self.as_bytes(), text, &mut answer) };
        result(number, answer).map(|[count, ..]| count as usize)
    }

    /// Writes the list of a text's tokens to the front of `words`, [`RECORD_WORDS`] each, and gives their number. The
    /// other words stay as they were; after a refusal all do.
    ///
    /// # Errors
    ///
    /// Those of [`count`](Image::count), then [`Refusal::Room`] where the words are too few.
    pub fn list<T: AsRef<[u8]> + ?Sized>(
        &self,
        text: &T,
        words: &mut [u32],
    ) -> Result<usize, Refusal> {
        let (text, mut answer) = (text.as_ref(), Answer::default());
        // Safety: the image was accepted.
        let number = unsafe { calls::list_checked(self.as_bytes(), text, words, &mut answer) };
        result(number, answer).map(|[count, ..]| count as usize)
    }

    /// The tokens of a text.
    ///
    /// ```
    /// use luffinarc::{write_image, Class, Image, Profile, Range, Refusal};
    ///
    /// fn main() -> Result<(), Refusal> {
    ///     let white = Range { first: 0x0A, last: 0x0D, class: Class::White };
    ///     let letters = Range { first: 'a'.into(), last: 'z'.into(), class: Class::Start };
    ///     let bytes = write_image(1, &[white, letters], &Profile::default())?;
    ///     let image = Image::check(&bytes)?;
    ///
    ///     let lines: Vec<u32> = image.tokens("pump\r\nvalve\n\npanel")?.map(|token| token.line).collect();
    ///     assert_eq!(lines, [1, 1, 2, 2, 4]);
    ///     Ok(())
    /// }
    /// ```
    ///
    /// White space is cut into blanks, line ends and marks. A mark may not stand inside what would be one token without
    /// it, as between two names:
    ///
    /// ```
    /// use luffinarc::{write_image, Class, Image, Kind, Profile, Range, Refusal};
    ///
    /// fn main() -> Result<(), Refusal> {
    ///     let range = |first: char, last: char, class| Range { first: first.into(), last: last.into(), class };
    ///     let ranges = [
    ///         range('\n', '\n', Class::White),
    ///         range(' ', ' ', Class::White),
    ///         range('=', '=', Class::Syntax),
    ///         range('a', 'z', Class::Start),
    ///         range('\u{200E}', '\u{200F}', Class::White),
    ///     ];
    ///     let bytes = write_image(1, &ranges, &Profile::default())?;
    ///     let image = Image::check(&bytes)?;
    ///
    ///     let kinds: Vec<Kind> = image.tokens("a\u{200E}= \n")?.map(|token| token.kind).collect();
    ///     assert_eq!(kinds, [Kind::Identifier, Kind::Mark, Kind::Syntax, Kind::Blank, Kind::LineEnd]);
    ///     assert_eq!(image.count("a\u{200E}b"), Err(Refusal::Mark { place: 1 }));
    ///     Ok(())
    /// }
    /// ```
    ///
    /// # Errors
    ///
    /// Those of [`count`](Image::count).
    pub fn tokens<T: AsRef<[u8]> + ?Sized>(&self, text: &T) -> Result<Tokens, Refusal> {
        let text = text.as_ref();
        let words = whole_list(text, 4, |words| self.list(text, words))?;
        Ok(Tokens { words, next: 0 })
    }

    /// The token at a byte place of a text; `None` if the place is the text's end. Nothing past the token needs to be
    /// well-formed, and no mark is refused: what stands before the place is not read.
    ///
    /// # Errors
    ///
    /// [`Refusal::TextLength`]; [`Refusal::Shape`] for a place past the end; [`Refusal::IllFormed`] or
    /// [`Refusal::Characters`] at the place. A place inside a sequence is ill-formed, with length 1:
    ///
    /// ```
    /// # use luffinarc::{write_image, Image, Profile, Refusal};
    /// # let bytes = write_image(1, &[], &Profile::default()).unwrap();
    /// # let image = Image::check(&bytes).unwrap();
    /// assert_eq!(image.token_at("é", 1), Err(Refusal::IllFormed { place: 1, len: 1 }));
    /// ```
    pub fn token_at<T: AsRef<[u8]> + ?Sized>(
        &self,
        text: &T,
        place: usize,
    ) -> Result<Option<Taken>, Refusal> {
        let (text, mut answer) = (text.as_ref(), Answer::default());
        // Safety: the image was accepted.
        let number = unsafe { calls::token_checked(self.as_bytes(), text, place, &mut answer) };
        if number == calls::DONE {
            return Ok(None);
        }
        let [kind, start, end, _] = result(number, answer)?;
        Ok(Some(Taken { kind: given_kind(kind as u32), range: start as usize..end as usize }))
    }
}

/// The part of a text with these bytes, as a token's range gives them.
///
/// # Errors
///
/// [`Refusal::Shape`] where the start is after the end, or the end past the text's end.
pub fn part(text: &[u8], range: Range<usize>) -> Result<&[u8], Refusal> {
    let mut answer = Answer::default();
    let number = calls::part(text, range.start, range.end, &mut answer);
    let [start, length, ..] = result(number, answer)?;
    Ok(&text[start as usize..][..length as usize])
}
