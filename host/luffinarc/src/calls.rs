//! The calls of the static library as they are: a number for an answer, 0 where it is no refusal, and an array of
//! four numbers for what is answered or carried. They take any arguments and check the image in each call, save those
//! whose names end in `_checked`: these take an image that was checked before, and are not safe with another.
//!
//! `include/luffinarc.h` says what the numbers mean. [`Image`](crate::Image) and the functions beside it are the
//! usual way to make these calls.

use crate::ffi;

pub use crate::ffi::{Answer, Entries};

/// Checks an image; the profile of an accepted one goes to `points` and `roles`.
pub fn check(image: &[u8], points: &mut Entries, roles: &mut Entries, answer: &mut Answer) -> u32 {
    // Safety: each pointer is of a reference, with the length of its slice; this holds of all calls here.
    unsafe { ffi::luffinarc_check(image.as_ptr(), image.len(), points, roles, answer) }
}

/// Reads an image: its ranges go to `words`, three each, its profile to `points` and `roles`.
pub fn read(
    image: &[u8],
    words: &mut [u32],
    points: &mut Entries,
    roles: &mut Entries,
    answer: &mut Answer,
) -> u32 {
    unsafe {
        let (image, image_len) = (image.as_ptr(), image.len());
        let (words, words_len) = (words.as_mut_ptr(), words.len());
        ffi::luffinarc_read(image, image_len, words, words_len, points, roles, answer)
    }
}

/// Writes the image of a version, of ranges, three words each, and of the first `used` profile entries.
pub fn write(
    version: u32,
    words: &[u32],
    points: &Entries,
    roles: &Entries,
    used: usize,
    out: &mut [u8],
    answer: &mut Answer,
) -> u32 {
    unsafe {
        let (words, words_len) = (words.as_ptr(), words.len());
        let (out, out_len) = (out.as_mut_ptr(), out.len());
        ffi::luffinarc_write(version, words, words_len, points, roles, used, out, out_len, answer)
    }
}

/// Looks up the class of a number after the profile.
pub fn lookup(image: &[u8], number: u32, answer: &mut Answer) -> u32 {
    unsafe { ffi::luffinarc_lookup(image.as_ptr(), image.len(), number, answer) }
}

/// As [`lookup`], in an image that is not checked again.
///
/// # Safety
///
/// [`check`] or [`read`] accepted the image.
pub unsafe fn lookup_checked(image: &[u8], number: u32, answer: &mut Answer) -> u32 {
    ffi::luffinarc_lookup_checked(image.as_ptr(), image.len(), number, answer)
}

/// Checks that the newer image differs from the older only by permitted changes.
pub fn pair(older: &[u8], newer: &[u8], answer: &mut Answer) -> u32 {
    unsafe {
        let (newer, newer_len) = (newer.as_ptr(), newer.len());
        ffi::luffinarc_pair(older.as_ptr(), older.len(), newer, newer_len, answer)
    }
}

/// Lists what changed between two images: runs of another class in the ranges go to `runs`, four words each, profile
/// entries of another role to `entries`, three words each.
pub fn changes(
    older: &[u8],
    newer: &[u8],
    runs: &mut [u32],
    entries: &mut [u32],
    answer: &mut Answer,
) -> u32 {
    let (older_len, newer_len) = (older.len(), newer.len());
    let (runs_len, entries_len) = (runs.len(), entries.len());
    let (older, newer) = (older.as_ptr(), newer.as_ptr());
    let (runs, entries) = (runs.as_mut_ptr(), entries.as_mut_ptr());
    unsafe {
        ffi::luffinarc_changes(
            older,
            older_len,
            newer,
            newer_len,
            runs,
            runs_len,
            entries,
            entries_len,
            answer,
        )
    }
}

/// The result of [`token`] where the place is the text's end.
pub const DONE: u32 = 255;

/// Counts the tokens of a text.
pub fn count(image: &[u8], text: &[u8], answer: &mut Answer) -> u32 {
    unsafe {
        let (text, text_len) = (text.as_ptr(), text.len());
        ffi::luffinarc_count(image.as_ptr(), image.len(), text, text_len, answer)
    }
}

/// As [`count`], under an image that is not checked again.
///
/// # Safety
///
/// [`check`] or [`read`] accepted the image.
pub unsafe fn count_checked(image: &[u8], text: &[u8], answer: &mut Answer) -> u32 {
    let (text, text_len) = (text.as_ptr(), text.len());
    ffi::luffinarc_count_checked(image.as_ptr(), image.len(), text, text_len, answer)
}

/// Calls a function that writes a list of a text.
///
/// # Safety
///
/// The image is one that the function takes.
unsafe fn listed(
    list: ffi::List,
    image: &[u8],
    text: &[u8],
    words: &mut [u32],
    answer: &mut Answer,
) -> u32 {
    let (image, image_len) = (image.as_ptr(), image.len());
    let (text, text_len) = (text.as_ptr(), text.len());
    let (words, words_len) = (words.as_mut_ptr(), words.len());
    list(image, image_len, text, text_len, words, words_len, answer)
}

/// Writes the list of a text's tokens to `words`, a record each: kind, start byte, end byte, line.
pub fn list(image: &[u8], text: &[u8], words: &mut [u32], answer: &mut Answer) -> u32 {
    unsafe { listed(ffi::luffinarc_list, image, text, words, answer) }
}

/// As [`list`], under an image that is not checked again.
///
/// # Safety
///
/// [`check`] or [`read`] accepted the image.
pub unsafe fn list_checked(
    image: &[u8],
    text: &[u8],
    words: &mut [u32],
    answer: &mut Answer,
) -> u32 {
    listed(ffi::luffinarc_list_checked, image, text, words, answer)
}

/// Takes the token at a place of a text.
pub fn token(image: &[u8], text: &[u8], place: usize, answer: &mut Answer) -> u32 {
    unsafe {
        let (text, text_len) = (text.as_ptr(), text.len());
        ffi::luffinarc_token(image.as_ptr(), image.len(), text, text_len, place, answer)
    }
}

/// As [`token`], under an image that is not checked again.
///
/// # Safety
///
/// [`check`] or [`read`] accepted the image.
pub unsafe fn token_checked(image: &[u8], text: &[u8], place: usize, answer: &mut Answer) -> u32 {
    let (text, text_len) = (text.as_ptr(), text.len());
    ffi::luffinarc_token_checked(image.as_ptr(), image.len(), text, text_len, place, answer)
}

/// Writes the list of a text's hashtags to `words`, a record each: kind, start byte, end byte, line.
pub fn hashtags(image: &[u8], text: &[u8], words: &mut [u32], answer: &mut Answer) -> u32 {
    unsafe { listed(ffi::luffinarc_hashtags, image, text, words, answer) }
}

/// As [`hashtags`], under an image that is not checked again.
///
/// # Safety
///
/// [`check`] or [`read`] accepted the image.
pub unsafe fn hashtags_checked(
    image: &[u8],
    text: &[u8],
    words: &mut [u32],
    answer: &mut Answer,
) -> u32 {
    listed(ffi::luffinarc_hashtags_checked, image, text, words, answer)
}

/// Hands back a part of a text, as its first byte and its number of bytes.
pub fn part(text: &[u8], start: usize, end: usize, answer: &mut Answer) -> u32 {
    unsafe { ffi::luffinarc_part(text.as_ptr(), text.len(), start, end, answer) }
}
