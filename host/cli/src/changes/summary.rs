//! The kinds of change: from which class to which.

use super::comparison::points;
use luffinarc::{check_pair, write_image, Class, Profile, Range, Run};
use std::collections::BTreeMap;

/// A kind of change that occurs, with its number of runs and code points.
pub struct ChangeKind {
    pub older: Class,
    pub newer: Class,
    pub runs: usize,
    pub code_points: usize,
    /// Whether the pair check permits it.
    pub permitted: bool,
}

impl ChangeKind {
    /// Whether a run is of this kind.
    pub fn is_of(&self, run: &Run) -> bool {
        (self.older, self.newer) == (run.older, run.newer)
    }

    /// Whether it is permitted, in a word.
    pub fn verdict(&self) -> &'static str {
        if self.permitted {
            "permitted"
        } else {
            "forbidden"
        }
    }
}

/// Whether the library permits a change: two images differ in one code point by exactly this.
fn is_permitted(older: Class, newer: Class) -> bool {
    let image = |class| {
        let letter = Range { first: 0x41, last: 0x41, class };
        let ranges = if class == Class::Unassigned { vec![] } else { vec![letter] };
        write_image(0, &ranges, &Profile::default())
    };
    match (image(older), image(newer)) {
        (Ok(older), Ok(newer)) => check_pair(&older, &newer).is_ok(),
        _ => false,
    }
}

/// The kinds of change that runs have, rising by classes.
pub fn kinds(runs: &[Run]) -> Vec<ChangeKind> {
    let mut kinds = BTreeMap::new();
    for run in runs {
        let Run { older, newer, .. } = *run;
        let kind = kinds.entry((older.number(), newer.number())).or_insert_with(|| {
            let permitted = is_permitted(older, newer);
            ChangeKind { older, newer, runs: 0, code_points: 0, permitted }
        });
        kind.runs += 1;
        kind.code_points += points(run);
    }
    kinds.into_values().collect()
}

/// The runs and code points of all kinds together.
pub fn total(kinds: &[ChangeKind]) -> (usize, usize) {
    let add = |(runs, points), kind: &ChangeKind| (runs + kind.runs, points + kind.code_points);
    kinds.iter().fold((0, 0), add)
}
