//! Two images and all that is told of them.

use super::summary::{self, ChangeKind};
use crate::check::in_words;
use crate::input::Input;
use crate::refusal::named;
use luffinarc::{
    check_pair, list_changes, Changes, Image, PairRefusal, Range, Refusal, Run, Version,
};

/// One of the two images.
pub struct Side {
    /// The file's name as it is shown.
    pub file: String,
    pub version: Version,
    /// Version, ranges and profile in a few words.
    pub words: String,
    pub ranges: Vec<Range>,
    /// The number of profile entries.
    pub entries: usize,
}

impl Side {
    fn of((input, image): (&Input, Image)) -> Side {
        Side {
            file: input.name.clone(),
            version: image.version(),
            words: in_words(&image),
            ranges: image.ranges(),
            entries: image.profile().entries().count(),
        }
    }
}

/// What changed, and whether the newer may follow the older.
pub struct Comparison {
    pub older: Side,
    pub newer: Side,
    pub changes: Changes,
    /// The kinds of change that occur, rising by classes.
    pub kinds: Vec<ChangeKind>,
    /// Why the newer may not follow the older; nothing where it may.
    pub refusal: Option<Refusal>,
}

/// The answer of the pair check in words.
pub const FOLLOWS: &str =
    "the newer may follow the older: every text that the older accepts has the same tokens \
                           under the newer";
pub const FOLLOWS_NOT: &str = "the newer may not follow the older";

impl Comparison {
    /// Compares an older and a newer image, each with its file.
    pub fn of([older, newer]: [(&Input, Image); 2]) -> Result<Comparison, PairRefusal> {
        let (older_bytes, newer_bytes) = (&older.0.bytes, &newer.0.bytes);
        let changes = list_changes(older_bytes, newer_bytes)?;
        let refusal = match check_pair(older_bytes, newer_bytes) {
            Ok(()) => None,
            Err(PairRefusal::Pair(refusal)) => Some(refusal),
            Err(of_image) => return Err(of_image),
        };
        let kinds = summary::kinds(&changes.runs);
        Ok(Comparison { older: Side::of(older), newer: Side::of(newer), changes, kinds, refusal })
    }

    /// Whether classes and profiles are the same.
    pub fn is_empty(&self) -> bool {
        self.changes.runs.is_empty() && self.changes.entries.is_empty()
    }

    /// Whether the pair check permits a run's change.
    pub fn permits(&self, run: &Run) -> bool {
        self.kinds.iter().any(|kind| kind.is_of(run) && kind.permitted)
    }

    /// Why the newer may not follow the older, in words: number, meaning, and the first code point with its classes.
    pub fn reason(&self, refusal: &Refusal) -> String {
        let reason = format!("refusal {}, {}", refusal.number(), refusal.text());
        let point = match *refusal {
            Refusal::Change { code_point } => code_point,
            _ => return reason,
        };
        match self.changes.runs.iter().find(|run| (run.first..=run.last).contains(&point)) {
            Some(run) => format!("{reason}: {} from {} to {}", named(point), run.older, run.newer),
            None => format!("{reason}: {}", named(point)),
        }
    }
}

/// The code points of a run.
pub fn points(run: &Run) -> usize {
    (run.last - run.first) as usize + 1
}
