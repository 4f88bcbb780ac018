//! The calls by one trait, so that another reader can be run on the same cases.

use crate::{
    changes, hashtag, image, lister, token, Checked, PairRefusal, Profile, Read, Refusal, Token,
};

pub trait Calls {
    fn check(&self, image: &[u8]) -> Result<Checked, Refusal>;

    fn read(&self, image: &[u8], words: &mut [u32]) -> Result<Read, Refusal>;

    fn write(
        &self,
        version: u32,
        words: &[u32],
        profile: &Profile,
        out: &mut [u8],
    ) -> Result<usize, Refusal>;

    fn lookup(&self, image: &[u8], number: u32) -> Result<(u32, u32), Refusal>;

    fn pair(&self, older: &[u8], newer: &[u8]) -> Result<(), PairRefusal>;

    fn changes(
        &self,
        older: &[u8],
        newer: &[u8],
        runs: &mut [u32],
        entries: &mut [u32],
    ) -> Result<(usize, usize), PairRefusal>;

    fn count(&self, image: &[u8], text: &[u8]) -> Result<usize, Refusal>;

    fn list(&self, image: &[u8], text: &[u8], words: &mut [u32]) -> Result<usize, Refusal>;

    fn at(&self, image: &[u8], text: &[u8], place: usize) -> Result<Option<Token>, Refusal>;

    fn part<'a>(&self, text: &'a [u8], start: usize, end: usize) -> Result<&'a [u8], Refusal>;

    fn hashtags(&self, image: &[u8], text: &[u8], words: &mut [u32]) -> Result<usize, Refusal>;

    /// The output of the token lister, where the reader has one.
    fn lister(&self, input: &[u8]) -> Option<String>;

    /// The output of the change lister, where the reader has one.
    fn change_lister(&self, input: &[u8]) -> Option<String>;
}

/// The calls of this crate.
pub struct Reader;

impl Calls for Reader {
    fn check(&self, image: &[u8]) -> Result<Checked, Refusal> {
        image::check(image)
    }

    fn read(&self, image: &[u8], words: &mut [u32]) -> Result<Read, Refusal> {
        image::read(image, words)
    }

    fn write(
        &self,
        version: u32,
        words: &[u32],
        profile: &Profile,
        out: &mut [u8],
    ) -> Result<usize, Refusal> {
        image::write(version, words, profile, out)
    }

    fn lookup(&self, image: &[u8], number: u32) -> Result<(u32, u32), Refusal> {
        image::lookup(image, number)
    }

    fn pair(&self, older: &[u8], newer: &[u8]) -> Result<(), PairRefusal> {
        image::pair(older, newer)
    }

    fn changes(
        &self,
        older: &[u8],
        newer: &[u8],
        runs: &mut [u32],
        entries: &mut [u32],
    ) -> Result<(usize, usize), PairRefusal> {
        changes::changes(older, newer, runs, entries)
    }

    fn count(&self, image: &[u8], text: &[u8]) -> Result<usize, Refusal> {
        token::count(image, text)
    }

    fn list(&self, image: &[u8], text: &[u8], words: &mut [u32]) -> Result<usize, Refusal> {
        token::list(image, text, words)
    }

    fn at(&self, image: &[u8], text: &[u8], place: usize) -> Result<Option<Token>, Refusal> {
        token::at(image, text, place)
    }

    fn part<'a>(&self, text: &'a [u8], start: usize, end: usize) -> Result<&'a [u8], Refusal> {
        token::part(text, start, end)
    }

    fn hashtags(&self, image: &[u8], text: &[u8], words: &mut [u32]) -> Result<usize, Refusal> {
        hashtag::hashtags(image, text, words)
    }

    fn lister(&self, input: &[u8]) -> Option<String> {
        Some(lister::lister(input))
    }

    fn change_lister(&self, input: &[u8]) -> Option<String> {
        Some(lister::change_lister(input))
    }
}
