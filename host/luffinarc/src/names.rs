//! The classes, roles and kinds by name, with their numbers.

use std::fmt;

/// The class of a code point.
#[derive(Clone, Copy, Debug, PartialEq, Eq, Hash)]
pub enum Class {
    /// In no range.
    Unassigned = 0,
    /// May begin an identifier.
    Start = 1,
    /// May continue an identifier, not begin one.
    Nonstart = 2,
    /// A syntax character.
    Syntax = 3,
    /// White space.
    White = 4,
    /// Assigned, and none of these.
    Other = 5,
}

impl Class {
    /// The class with this number, if one has it.
    pub fn from_number(number: u32) -> Option<Class> {
        match number {
            0 => Some(Class::Unassigned),
            1 => Some(Class::Start),
            2 => Some(Class::Nonstart),
            3 => Some(Class::Syntax),
            4 => Some(Class::White),
            5 => Some(Class::Other),
            _ => None,
        }
    }

    /// The class's number.
    pub fn number(self) -> u32 {
        self as u32
    }

    /// The name.
    pub fn name(self) -> &'static str {
        match self {
            Class::Unassigned => "Unassigned",
            Class::Start => "Start",
            Class::Nonstart => "Nonstart",
            Class::Syntax => "Syntax",
            Class::White => "White",
            Class::Other => "Other",
        }
    }
}

/// Shows the name.
impl fmt::Display for Class {
    fn fmt(&self, f: &mut fmt::Formatter<'_>) -> fmt::Result {
        f.pad(self.name())
    }
}

/// The role of a code point in a profile.
#[derive(Clone, Copy, Debug, PartialEq, Eq, Hash)]
pub enum Role {
    /// Its class is Start.
    Start = 1,
    /// Its class is Nonstart.
    Nonstart = 2,
    /// It is a medial and keeps its class.
    Medial = 3,
    /// Its class is Other.
    Other = 4,
    /// It is part of hashtags and keeps its class.
    Hashtag = 5,
}

impl Role {
    /// The role with this number, if one has it.
    pub fn from_number(number: u32) -> Option<Role> {
        match number {
            1 => Some(Role::Start),
            2 => Some(Role::Nonstart),
            3 => Some(Role::Medial),
            4 => Some(Role::Other),
            5 => Some(Role::Hashtag),
            _ => None,
        }
    }

    /// The role's number.
    pub fn number(self) -> u32 {
        self as u32
    }

    /// The name.
    pub fn name(self) -> &'static str {
        match self {
            Role::Start => "Start",
            Role::Nonstart => "Nonstart",
            Role::Medial => "Medial",
            Role::Other => "Other",
            Role::Hashtag => "Hashtag",
        }
    }
}

/// Shows the name.
impl fmt::Display for Role {
    fn fmt(&self, f: &mut fmt::Formatter<'_>) -> fmt::Result {
        f.pad(self.name())
    }
}

/// The kind of a token.
#[derive(Clone, Copy, Debug, PartialEq, Eq, Hash)]
#[non_exhaustive]
pub enum Kind {
    /// One Start, any number of Continue, then any number of groups of one medial and one or more Continue.
    Identifier = 1,
    /// One code point of class Syntax.
    Syntax = 2,
    /// One or more code points of class White that are neither line ends nor marks.
    Blank = 3,
    /// One or more line ends of class White: U+000A, U+000B, U+000C, U+000D, U+0085, U+2028 and U+2029.
    LineEnd = 4,
    /// One or more direction marks of class White: U+200E and U+200F.
    Mark = 5,
}

impl Kind {
    /// The kind with this number, if one has it.
    pub fn from_number(number: u32) -> Option<Kind> {
        match number {
            1 => Some(Kind::Identifier),
            2 => Some(Kind::Syntax),
            3 => Some(Kind::Blank),
            4 => Some(Kind::LineEnd),
            5 => Some(Kind::Mark),
            _ => None,
        }
    }

    /// The kind's number.
    pub fn number(self) -> u32 {
        self as u32
    }

    /// The name.
    pub fn name(self) -> &'static str {
        match self {
            Kind::Identifier => "Identifier",
            Kind::Syntax => "Syntax",
            Kind::Blank => "Blank",
            Kind::LineEnd => "LineEnd",
            Kind::Mark => "Mark",
        }
    }
}

/// Shows the name.
impl fmt::Display for Kind {
    fn fmt(&self, f: &mut fmt::Formatter<'_>) -> fmt::Result {
        f.pad(self.name())
    }
}
