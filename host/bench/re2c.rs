//! The reader that re2c makes, if `LUFFINARC_RE2C` names the file that holds it. It is of Unicode 16.0 without a profile.

use crate::shared;
use luffinarc::{Image, RECORD_WORDS};
use luffinarc_reader::cases::{self, Rng};
use std::ffi::c_void;
use std::mem::transmute;

type Count = unsafe extern "C" fn(*const u8, usize) -> i64;
type List = unsafe extern "C" fn(*const u8, usize, *mut u32) -> i64;

/// The reader that re2c makes.
pub struct Re2c(Count, List);

/// The length of a text that has a NUL after it.
#[inline(always)]
fn length(text: &[u8]) -> usize {
    assert_eq!(text.last(), Some(&0));
    text.len() - 1
}

impl Re2c {
    pub fn load() -> Option<Re2c> {
        let [count, list] = shared::functions("LUFFINARC_RE2C", ["re2c_count", "re2c_list"])?;
        // Safety: the file is made of `re2c.re`, whose functions have these types.
        Some(unsafe {
            Re2c(transmute::<*mut c_void, Count>(count), transmute::<*mut c_void, List>(list))
        })
    }

    /// Counts the tokens of a text that has a NUL after it; the number of a refusal is below 0.
    #[inline(always)]
    pub fn count(&self, text: &[u8]) -> i64 {
        let len = length(text);
        // Safety: the pointer is of a slice, which has the NUL.
        unsafe { (self.0)(text.as_ptr(), len) }
    }

    /// Lists the tokens of such a text in words that have room for one at each byte.
    #[inline(always)]
    pub fn list(&self, text: &[u8], words: &mut [u32]) -> i64 {
        let len = length(text);
        assert!(words.len() >= RECORD_WORDS * len);
        // Safety: as above, and a token has a byte at least.
        unsafe { (self.1)(text.as_ptr(), len, words.as_mut_ptr()) }
    }

    /// On made texts with marks, some of them ill-formed, it answers as the library does under its image.
    pub fn check(&self, image: &Image) {
        let mut rng = Rng::new();
        for _ in 0..20_000 {
            let mut text = cases::marked_text(&mut rng);
            let expected =
                image.count(&text).map_or_else(|r| -i64::from(r.number()), |count| count as i64);
            let mut words = vec![0; RECORD_WORDS * text.len()];
            text.push(0);
            assert_eq!(
                [self.count(&text), self.list(&text, &mut words)],
                [expected; 2],
                "{text:02X?}"
            );
        }
    }
}
