//! The classes, roles and kinds by name, with their numbers.

/// Classes of code points.
pub mod class {
    pub const UNASSIGNED: u32 = 0;
    pub const START: u32 = 1;
    pub const NONSTART: u32 = 2;
    pub const SYNTAX: u32 = 3;
    pub const WHITE: u32 = 4;
    pub const OTHER: u32 = 5;
}

/// Roles of profile entries.
pub mod role {
    pub const START: u32 = 1;
    pub const NONSTART: u32 = 2;
    pub const MEDIAL: u32 = 3;
    pub const OTHER: u32 = 4;
    pub const HASHTAG: u32 = 5;
}

/// Kinds of tokens, and that of hashtags.
pub mod kind {
    pub const IDENTIFIER: u32 = 1;
    pub const SYNTAX: u32 = 2;
    pub const BLANK: u32 = 3;
    pub const LINE_END: u32 = 4;
    pub const MARK: u32 = 5;
    pub const HASHTAG: u32 = 6;
}
