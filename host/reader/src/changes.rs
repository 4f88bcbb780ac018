//! What changed between two images, by going through every scalar value.

use crate::image::{parse, Image, CODE_POINTS, MAX_ENTRIES};
use crate::refusal::{PairRefusal, Refusal};
use crate::utf8::is_scalar;

/// The words of a run: first, last, older class, newer class.
pub const RUN_WORDS: usize = 4;

/// The words of a changed entry: code point, older role, newer role.
pub const CHANGED_ENTRY_WORDS: usize = 3;

/// The most runs and changed entries.
pub const MAX_RUNS: usize = 16_383;
pub const MAX_CHANGED_ENTRIES: usize = 2 * MAX_ENTRIES;

type Run = [u32; RUN_WORDS];
type Entry = [u32; CHANGED_ENTRY_WORDS];

/// The longest runs of scalar values with one pair of unequal classes in the ranges.
fn runs_of(older: &Image, newer: &Image) -> Vec<Run> {
    let (from, to) = (older.table(), newer.table());
    let mut runs: Vec<Run> = Vec::new();
    for point in (0..CODE_POINTS).filter(|&point| from[point] != to[point]) {
        let (class, new) = (u32::from(from[point]), u32::from(to[point]));
        let point = point as u32;
        assert!(is_scalar(point), "a surrogate is in no range");
        match runs.last_mut() {
            Some(run) if run[1] + 1 == point && run[2..] == [class, new] => run[1] = point,
            _ => runs.push([point, point, class, new]),
        }
    }
    runs
}

/// The code points with unequal roles.
fn entries_of(older: &Image, newer: &Image) -> Vec<Entry> {
    let (from, to) = (older.roles(), newer.roles());
    let changed = (0..CODE_POINTS).filter(|&point| from[point] != to[point]);
    changed.map(|point| [point as u32, from[point].into(), to[point].into()]).collect()
}

/// The runs and the entries that changed, or the first of refusals 1 to 4 of the older image, then of the newer.
pub fn changes_of(older: &[u8], newer: &[u8]) -> Result<(Vec<Run>, Vec<Entry>), PairRefusal> {
    let older = parse(older).map_err(PairRefusal::Older)?;
    let newer = parse(newer).map_err(PairRefusal::Newer)?;
    Ok((runs_of(&older, &newer), entries_of(&older, &newer)))
}

/// Refuses with 8 where the lent words have no room for so many records.
fn check_room(words: &[u32], size: usize, records: usize) -> Result<(), PairRefusal> {
    if words.len() / size < records {
        return Err(PairRefusal::Pair(Refusal::Room(records as u64)));
    }
    Ok(())
}

/// Lists what changed in the lent words, four a run and three an entry, and counts both.
pub fn changes(
    older: &[u8],
    newer: &[u8],
    runs: &mut [u32],
    entries: &mut [u32],
) -> Result<(usize, usize), PairRefusal> {
    let (all_runs, all_entries) = changes_of(older, newer)?;
    check_room(runs, RUN_WORDS, all_runs.len())?;
    check_room(entries, CHANGED_ENTRY_WORDS, all_entries.len())?;
    for (run, record) in all_runs.iter().zip(runs.chunks_exact_mut(RUN_WORDS)) {
        record.copy_from_slice(run);
    }
    for (entry, record) in all_entries.iter().zip(entries.chunks_exact_mut(CHANGED_ENTRY_WORDS)) {
        record.copy_from_slice(entry);
    }
    Ok((all_runs.len(), all_entries.len()))
}
