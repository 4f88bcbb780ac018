//! The list of what changed between two images as a Rust user would write it by hand: both images are checked, then
//! one walk goes over both lists of ranges, and one over both profiles, straight from the bytes.

use crate::rival::{check, word};
use luffinarc::{CHANGED_ENTRY_WORDS, RUN_WORDS};

/// One past the last code point.
const END: u32 = 0x110000;

/// The lists, used again by each call.
#[derive(Default)]
pub struct Changes {
    pub runs: Vec<[u32; RUN_WORDS]>,
    pub entries: Vec<[u32; CHANGED_ENTRY_WORDS]>,
}

/// A range: first, one past the last, class.
#[inline(always)]
fn range(bytes: Option<&[u8]>) -> (u32, u32, u32) {
    bytes.map_or((END, END, 0), |range| (word(range, 0), word(range, 4) + 1, word(range, 8)))
}

/// A profile entry: code point and role.
#[inline(always)]
fn entry(bytes: Option<&[u8]>) -> (u32, u32) {
    bytes.map_or((END, 0), |entry| (word(entry, 0), word(entry, 4)))
}

impl Changes {
    /// Lists the changes in place of what the lists held; nothing where an image is not accepted.
    pub fn list(&mut self, older: &[u8], newer: &[u8]) -> Option<(usize, usize)> {
        let (old, new) = (32 + 12 * check(older)?, 32 + 12 * check(newer)?);
        self.list_runs(&older[32..old], &newer[32..new]);
        self.list_entries(&older[old..], &newer[new..]);
        Some((self.runs.len(), self.entries.len()))
    }

    /// Lists the runs of two lists of ranges.
    fn list_runs(&mut self, older: &[u8], newer: &[u8]) {
        self.runs.clear();
        let (mut older, mut newer) = (older.chunks_exact(12), newer.chunks_exact(12));
        let (mut old, mut new) = (range(older.next()), range(newer.next()));
        let mut at = old.0.min(new.0);
        while at < END {
            let (old_end, old_class) = if at < old.0 { (old.0, 0) } else { (old.1, old.2) };
            let (new_end, new_class) = if at < new.0 { (new.0, 0) } else { (new.1, new.2) };
            let end = old_end.min(new_end);
            if old_class != new_class {
                self.runs.push([at, end - 1, old_class, new_class]);
            }
            if end == old.1 {
                old = range(older.next());
            }
            if end == new.1 {
                new = range(newer.next());
            }
            at = end.max(old.0.min(new.0));
        }
    }

    /// Lists the entries of two profiles.
    fn list_entries(&mut self, older: &[u8], newer: &[u8]) {
        self.entries.clear();
        let (mut older, mut newer) = (older.chunks_exact(8), newer.chunks_exact(8));
        let (mut old, mut new) = (entry(older.next()), entry(newer.next()));
        while old.0 < END || new.0 < END {
            let point = old.0.min(new.0);
            let (mut old_role, mut new_role) = (0, 0);
            if old.0 == point {
                old_role = old.1;
                old = entry(older.next());
            }
            if new.0 == point {
                new_role = new.1;
                new = entry(newer.next());
            }
            if old_role != new_role {
                self.entries.push([point, old_role, new_role]);
            }
        }
    }
}
