//! Class images, tokens and hashtags by Unicode Standard Annex #31: safe calls of the proved static library.
//!
//! A class image says of every code point whether it may begin or continue an identifier, is a syntax character or
//! white space. Under an image, a text is cut into identifiers, syntax characters, blanks, line ends and direction
//! marks: each token is the longest at its place. In flowing text, whatever its characters, the hashtags are found.
//!
//! Every call ends with an answer or a named [`Refusal`], for all images, texts and numbers. An [`Image`] was checked
//! once, and the calls on it do not check it again.
//!
//! ```
//! use luffinarc::{write_image, Class, Image, Kind, Profile, Range, Refusal, Role, Version};
//!
//! fn main() -> Result<(), Refusal> {
//!     let range = |first: char, last: char, class| Range { first: first.into(), last: last.into(), class };
//!     let ranges = [
//!         range(' ', ' ', Class::White),
//!         range('.', '.', Class::Syntax),
//!         range('0', '9', Class::Nonstart),
//!         range('A', 'Z', Class::Start),
//!         range('a', 'z', Class::Start),
//!     ];
//!     // A full stop between letters or digits is part of the identifier.
//!     let profile = Profile::new(&[('.'.into(), Role::Medial)]);
//!     let bytes = write_image(Version::new(16, 0, 0), &ranges, &profile)?;
//!
//!     let image = Image::check(&bytes)?;
//!     assert_eq!(image.class('7'), Class::Nonstart);
//!     let text = "ab.c1 .";
//!     assert_eq!(image.count(text)?, 3);
//!     let parts: Vec<_> = image.tokens(text)?.map(|token| (token.kind, &text[token.range])).collect();
//!     assert_eq!(parts, [(Kind::Identifier, "ab.c1"), (Kind::Blank, " "), (Kind::Syntax, ".")]);
//!
//!     assert_eq!(image.count("a 1"), Err(Refusal::Characters { place: 2 }));
//!     assert_eq!(image.count(b"a\xE2\x82"), Err(Refusal::IllFormed { place: 1, len: 2 }));
//!     Ok(())
//! }
//! ```

#![warn(missing_docs)]

pub mod calls;
mod changes;
mod ffi;
mod hashtag;
mod image;
mod names;
mod record;
mod refusal;
mod token;
mod version;

pub use changes::{
    list_changes, ChangedEntry, Changes, Run, CHANGED_ENTRY_WORDS, MAX_CHANGED_ENTRIES, MAX_RUNS,
    RUN_WORDS,
};
pub use hashtag::{Hashtag, HASHTAG_KIND};
pub use image::{
    check_pair, write_image, Found, Image, ImageBuf, Profile, Range, MAX_ENTRIES, MAX_IMAGE,
    MAX_RANGES, RANGE_WORDS,
};
pub use names::{Class, Kind, Role};
pub use record::RECORD_WORDS;
pub use refusal::{PairRefusal, Refusal};
pub use token::{part, Taken, Token, Tokens, MAX_TEXT};
pub use version::{NoVersion, Version};
