//! The reader over ICU, if `LUFFINARC_ICU` names the file that holds it.

use crate::shared;
use luffinarc::RECORD_WORDS;
use std::ffi::{c_void, CStr};
use std::os::raw::c_char;

type Tokens = unsafe extern "C" fn(*const u8, i32, *const c_char, *mut u32) -> i64;

/// The reader over ICU.
pub struct Icu(Tokens);

impl Icu {
    pub fn load() -> Option<Icu> {
        let [tokens] = shared::functions("LUFFINARC_ICU", ["icu_tokens"])?;
        // Safety: the file is made of `icu.c`, whose function has this type.
        Some(Icu(unsafe { std::mem::transmute::<*mut c_void, Tokens>(tokens) }))
    }

    /// Counts the text's tokens with these medials; -1 where it has none.
    pub fn count(&self, text: &[u8], medials: &CStr) -> i64 {
        let none = std::ptr::null_mut();
        // Safety: the pointer is of a slice, with its length.
        unsafe { (self.0)(text.as_ptr(), text.len() as i32, medials.as_ptr(), none) }
    }

    /// Lists the text's tokens in words that have room for one at each byte.
    pub fn list(&self, text: &[u8], medials: &CStr, words: &mut [u32]) -> i64 {
        assert!(words.len() >= RECORD_WORDS * text.len());
        let words = words.as_mut_ptr();
        // Safety: as above, and a token has a byte at least.
        unsafe { (self.0)(text.as_ptr(), text.len() as i32, medials.as_ptr(), words) }
    }
}
