//! The records of a list of tokens or of hashtags.

use crate::refusal::Refusal;

/// The words of a record: kind, start byte, end byte, line.
pub const RECORD_WORDS: usize = 4;

pub type Record = [u32; RECORD_WORDS];

/// Writes the records to the lent words and counts them.
pub fn write_records(records: &[Record], words: &mut [u32]) -> Result<usize, Refusal> {
    if words.len() / RECORD_WORDS < records.len() {
        return Err(Refusal::Room(records.len() as u64));
    }
    for (record, lent) in records.iter().zip(words.chunks_exact_mut(RECORD_WORDS)) {
        lent.copy_from_slice(record);
    }
    Ok(records.len())
}
