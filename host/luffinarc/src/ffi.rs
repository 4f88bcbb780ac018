//! The functions of the static library as C sees them; `include/luffinarc.h` documents them.

/// What a call answers, or what its refusal carries.
pub type Answer = [u64; 4];

/// The code points or the roles of a profile.
pub type Entries = [u32; crate::MAX_ENTRIES];

/// A function that writes a list of a text: of image, text, words and answer.
pub type List =
    unsafe extern "C" fn(*const u8, usize, *const u8, usize, *mut u32, usize, *mut Answer) -> u32;

extern "C" {
    pub fn luffinarc_check(
        image: *const u8,
        image_len: usize,
        points: *mut Entries,
        roles: *mut Entries,
        answer: *mut Answer,
    ) -> u32;

    pub fn luffinarc_read(
        image: *const u8,
        image_len: usize,
        words: *mut u32,
        words_len: usize,
        points: *mut Entries,
        roles: *mut Entries,
        answer: *mut Answer,
    ) -> u32;

    pub fn luffinarc_write(
        version: u32,
        words: *const u32,
        words_len: usize,
        points: *const Entries,
        roles: *const Entries,
        used: usize,
        out: *mut u8,
        out_len: usize,
        answer: *mut Answer,
    ) -> u32;

    pub fn luffinarc_lookup(
        image: *const u8,
        image_len: usize,
        number: u32,
        answer: *mut Answer,
    ) -> u32;

    pub fn luffinarc_lookup_checked(
        image: *const u8,
        image_len: usize,
        number: u32,
        answer: *mut Answer,
    ) -> u32;

    pub fn luffinarc_pair(
        older: *const u8,
        older_len: usize,
        newer: *const u8,
        newer_len: usize,
        answer: *mut Answer,
    ) -> u32;

    pub fn luffinarc_changes(
        older: *const u8,
        older_len: usize,
        newer: *const u8,
        newer_len: usize,
        runs: *mut u32,
        runs_len: usize,
        entries: *mut u32,
        entries_len: usize,
        answer: *mut Answer,
    ) -> u32;

    pub fn luffinarc_count(
        image: *const u8,
        image_len: usize,
        text: *const u8,
        text_len: usize,
        answer: *mut Answer,
    ) -> u32;

    pub fn luffinarc_count_checked(
        image: *const u8,
        image_len: usize,
        text: *const u8,
        text_len: usize,
        answer: *mut Answer,
    ) -> u32;

    pub fn luffinarc_list(
        image: *const u8,
        image_len: usize,
        text: *const u8,
        text_len: usize,
        words: *mut u32,
        words_len: usize,
        answer: *mut Answer,
    ) -> u32;

    pub fn luffinarc_list_checked(
        image: *const u8,
        image_len: usize,
        text: *const u8,
        text_len: usize,
        words: *mut u32,
        words_len: usize,
        answer: *mut Answer,
    ) -> u32;

    pub fn luffinarc_token(
        image: *const u8,
        image_len: usize,
        text: *const u8,
        text_len: usize,
        place: usize,
        answer: *mut Answer,
    ) -> u32;

    pub fn luffinarc_token_checked(
        image: *const u8,
        image_len: usize,
        text: *const u8,
        text_len: usize,
        place: usize,
        answer: *mut Answer,
    ) -> u32;

    pub fn luffinarc_hashtags(
        image: *const u8,
        image_len: usize,
        text: *const u8,
        text_len: usize,
        words: *mut u32,
        words_len: usize,
        answer: *mut Answer,
    ) -> u32;

    pub fn luffinarc_hashtags_checked(
        image: *const u8,
        image_len: usize,
        text: *const u8,
        text_len: usize,
        words: *mut u32,
        words_len: usize,
        answer: *mut Answer,
    ) -> u32;

    pub fn luffinarc_part(
        text: *const u8,
        text_len: usize,
        start: usize,
        end: usize,
        answer: *mut Answer,
    ) -> u32;
}
