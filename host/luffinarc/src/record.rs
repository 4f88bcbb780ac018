//! Lists of records: of tokens and of hashtags.

use crate::refusal::Refusal;
use crate::token::MAX_TEXT;
use std::ops::Range;

/// The words of a record in a list of tokens or of hashtags: kind, start byte, end byte, line.
pub const RECORD_WORDS: usize = 4;

/// The kind, the bytes and the line of a record.
pub(crate) fn record(words: &[u32]) -> (u32, Range<usize>, u32) {
    (words[0], words[1] as usize..words[2] as usize, words[3])
}

/// The words of a whole list of a text, by the call that writes it. There is room at first for a record to so many
/// bytes; a text with more is listed again with the room that it needs.
pub(crate) fn whole_list(
    text: &[u8],
    bytes: usize,
    mut list: impl FnMut(&mut [u32]) -> Result<usize, Refusal>,
) -> Result<Vec<u32>, Refusal> {
    let mut words = vec![0; RECORD_WORDS * (text.len().min(MAX_TEXT) / bytes + 16)];
    let count = match list(&mut words) {
        Err(Refusal::Room { needed }) => {
            words = vec![0; RECORD_WORDS * needed];
            list(&mut words)?
        }
        listed => listed?,
    };
    words.truncate(RECORD_WORDS * count);
    Ok(words)
}
