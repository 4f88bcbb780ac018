//! What changed between two images.

use crate::calls::{self, Answer};
use crate::image::{given_class, MAX_ENTRIES, MAX_RANGES, RANGE_WORDS};
use crate::names::{Class, Role};
use crate::refusal::{pair_result, PairRefusal};

/// The words of a run in a list: first, last, older class, newer class.
pub const RUN_WORDS: usize = 4;

/// The words of a changed entry in a list: code point, older role, newer role.
pub const CHANGED_ENTRY_WORDS: usize = 3;

/// The most runs between two images.
pub const MAX_RUNS: usize = 4 * MAX_RANGES - 1;

/// The most changed entries between two images.
pub const MAX_CHANGED_ENTRIES: usize = 2 * MAX_ENTRIES;

/// Scalar values from `first` to `last` whose class in the ranges differs. A run has one pair of classes, is as long as
/// it can be, and does not go across the surrogates.
#[derive(Clone, Copy, Debug, PartialEq, Eq, Hash)]
pub struct Run {
    /// The first scalar value.
    pub first: u32,
    /// The last scalar value.
    pub last: u32,
    /// Their class in the ranges of the older image.
    pub older: Class,
    /// Their class in the ranges of the newer image.
    pub newer: Class,
}

/// A profile entry that was added or taken out, or has another role.
#[derive(Clone, Copy, Debug, PartialEq, Eq, Hash)]
pub struct ChangedEntry {
    /// The code point.
    pub code_point: u32,
    /// Its role in the older image; `None` where it has no entry.
    pub older: Option<Role>,
    /// Its role in the newer image; `None` where it has no entry.
    pub newer: Option<Role>,
}

/// What changed between two images.
#[derive(Clone, Debug, Default, PartialEq, Eq, Hash)]
pub struct Changes {
    /// The runs of scalar values with another class in the ranges, rising.
    pub runs: Vec<Run>,
    /// The profile entries with another role, rising.
    pub entries: Vec<ChangedEntry>,
}

/// The role with a number that the library gave, 0 for none.
fn given_role(number: u32) -> Option<Role> {
    assert!(number <= Role::Hashtag.number(), "the library gives roles 0 to 5");
    Role::from_number(number)
}

/// Lists what changed from the older image to the newer: every change, forbidden ones too. [`check_pair`] alone tells
/// whether all are permitted. Version words are not compared.
///
/// [`check_pair`]: crate::check_pair
///
/// ```
/// use luffinarc::{list_changes, write_image, Class, Profile, Range, Role, Run};
///
/// let letters = Range { first: 0x61, last: 0x7A, class: Class::Start };
/// let accent = Range { first: 0xE9, last: 0xE9, class: Class::Start };
/// let older = write_image(1, &[letters], &Profile::default()).unwrap();
/// let newer = write_image(2, &[letters, accent], &Profile::new(&[(0x2D, Role::Medial)])).unwrap();
///
/// let changes = list_changes(&older, &newer).unwrap();
/// let run = Run { first: 0xE9, last: 0xE9, older: Class::Unassigned, newer: Class::Start };
/// assert_eq!(changes.runs, [run]);
/// assert_eq!(changes.entries[0].newer, Some(Role::Medial));
/// assert_eq!((changes.entries.len(), changes.entries[0].older), (1, None));
/// ```
///
/// # Errors
///
/// The refusal of the older image, else of the newer; none of the pair.
pub fn list_changes(older: &[u8], newer: &[u8]) -> Result<Changes, PairRefusal> {
    // A run begins at a range's first code point or after its last. A range has twelve bytes, a profile entry eight:
    // this is room for all.
    let bytes = older.len() + newer.len();
    let (ranges, changed) = (bytes / (4 * RANGE_WORDS), bytes / 8);
    let mut runs = vec![0; RUN_WORDS * (2 * ranges).min(MAX_RUNS)];
    let mut entries = vec![0; CHANGED_ENTRY_WORDS * changed.min(MAX_CHANGED_ENTRIES)];
    let mut answer = Answer::default();
    let number = calls::changes(older, newer, &mut runs, &mut entries, &mut answer);
    let [run_count, entry_count, ..] = pair_result(number, answer)?;
    let run = |w: &[u32]| Run {
        first: w[0],
        last: w[1],
        older: given_class(w[2]),
        newer: given_class(w[3]),
    };
    let entry = |w: &[u32]| ChangedEntry {
        code_point: w[0],
        older: given_role(w[1]),
        newer: given_role(w[2]),
    };
    let (runs, entries) = (runs.chunks_exact(RUN_WORDS), entries.chunks_exact(CHANGED_ENTRY_WORDS));
    Ok(Changes {
        runs: runs.take(run_count as usize).map(run).collect(),
        entries: entries.take(entry_count as usize).map(entry).collect(),
    })
}
