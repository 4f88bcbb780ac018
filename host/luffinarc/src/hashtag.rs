//! Hashtags of a text under an accepted image.

use crate::calls::{self, Answer};
use crate::image::Image;
use crate::record::{record, whole_list, RECORD_WORDS};
use crate::refusal::{result, Refusal};
use std::ops::Range;

/// The kind in the record of a hashtag, which no token has.
pub const HASHTAG_KIND: u32 = 6;

/// A hashtag: its bytes' places in the text, and its line.
#[derive(Clone, Debug, PartialEq, Eq, Hash)]
pub struct Hashtag {
    /// The first byte, of the sign, and one past the last.
    pub range: Range<usize>,
    /// The line of the sign, counted from 1; line ends are those of [`Token::line`](crate::Token::line).
    pub line: u32,
}

impl Image<'_> {
    /// Writes the list of a text's hashtags to the front of `words`, [`RECORD_WORDS`] each, and gives their number. The
    /// other words stay as they were; after a refusal all do. The kind in each record is [`HASHTAG_KIND`].
    ///
    /// # Errors
    ///
    /// Those of [`hashtags`](Image::hashtags), then [`Refusal::Room`] where the words are too few.
    pub fn list_hashtags<T: AsRef<[u8]> + ?Sized>(
        &self,
        text: &T,
        words: &mut [u32],
    ) -> Result<usize, Refusal> {
        let (text, mut answer) = (text.as_ref(), Answer::default());
        // Safety: the image was accepted.
        let number = unsafe { calls::hashtags_checked(self.as_bytes(), text, words, &mut answer) };
        result(number, answer).map(|[count, ..]| count as usize)
    }

    /// The hashtags of a text, in their order. A hashtag is one of the signs U+0023, U+FE5F and U+FF03 and after it the
    /// longest run of hashtag Continue, at least one, where no hashtag Continue stands right before the sign. Hashtag
    /// Continue are the code points of class Start or Nonstart and those with [`Role::Hashtag`], but none of the signs.
    /// No text is refused for its characters.
    ///
    /// [`Role::Hashtag`]: crate::Role::Hashtag
    ///
    /// ```
    /// use luffinarc::{write_image, Class, Image, Profile, Range, Refusal, Role};
    ///
    /// fn main() -> Result<(), Refusal> {
    ///     let letters = Range { first: 'a'.into(), last: 'z'.into(), class: Class::Start };
    ///     let bytes = write_image(1, &[letters], &Profile::new(&[('-'.into(), Role::Hashtag)]))?;
    ///     let image = Image::check(&bytes)?;
    ///
    ///     let text = "shift note:\n#night-shift, ##leak; not b#c";
    ///     let tags = image.hashtags(text)?;
    ///     let parts: Vec<_> = tags.into_iter().map(|tag| (&text[tag.range], tag.line)).collect();
    ///     assert_eq!(parts, [("#night-shift", 2), ("#leak", 2)]);
    ///     Ok(())
    /// }
    /// ```
    ///
    /// # Errors
    ///
    /// [`Refusal::TextLength`] or [`Refusal::IllFormed`], the first that applies.
    pub fn hashtags<T: AsRef<[u8]> + ?Sized>(&self, text: &T) -> Result<Vec<Hashtag>, Refusal> {
        let text = text.as_ref();
        let words = whole_list(text, 64, |words| self.list_hashtags(text, words))?;
        let tag = |words: &[u32]| {
            let (_, range, line) = record(words);
            Hashtag { range, line }
        };
        Ok(words.chunks_exact(RECORD_WORDS).map(tag).collect())
    }
}
