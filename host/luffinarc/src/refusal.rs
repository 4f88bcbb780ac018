//! Why a call refused its arguments.

use crate::calls::Answer;
use std::fmt;

/// A named refusal. Its name and number are the same in all documents, in C and in Rattle.
#[derive(Clone, Copy, Debug, PartialEq, Eq, Hash)]
#[non_exhaustive]
pub enum Refusal {
    /// 1: the image is too short or too long, or not of the header's total length.
    Length,
    /// 2: a word of the image's header is wrong, or a count is above its limit.
    Header,
    /// 3: a range is bad.
    Range {
        /// The index of the first bad one.
        index: usize,
    },
    /// 4: a profile entry is bad.
    Entry {
        /// The index of the first bad one.
        index: usize,
    },
    /// 5: the text is too long.
    TextLength,
    /// 6: no well-formed UTF-8 sequence begins at a byte place, the first such.
    IllFormed {
        /// The byte place.
        place: usize,
        /// The length of the maximal subpart there (the Unicode Standard, D93b): the most bytes from the place on that
        /// some well-formed sequence begins with, or else 1. It is 1, 2 or 3, and these bytes are of the text.
        len: usize,
    },
    /// 7: no token begins at a byte place, after the longest run of tokens.
    Characters {
        /// The byte place.
        place: usize,
    },
    /// 8: more room is needed.
    Room {
        /// The number of records.
        needed: usize,
    },
    /// 9: the number is no scalar value.
    NotScalar {
        /// The number.
        number: u32,
    },
    /// 10: a forbidden change.
    Change {
        /// The smallest code point with one.
        code_point: u32,
    },
    /// 11: the profile sections are unequal.
    Profiles,
    /// 12: the buffer for an image is too short.
    Buffer {
        /// The bytes needed.
        needed: usize,
    },
    /// 13: a list of words is no multiple of its record's words, or a place lies past the text's end, or a start after
    /// an end.
    Shape,
    /// 14: a direction mark parts a token. It stands between two tokens that are no white space, and with it taken out
    /// of the text no token would end where it stood.
    Mark {
        /// The byte place of the first such.
        place: usize,
    },
}

impl Refusal {
    /// The number, and the first number that the refusal carries.
    fn row(&self) -> (u32, Option<u64>) {
        match *self {
            Refusal::Length => (1, None),
            Refusal::Header => (2, None),
            Refusal::Range { index } => (3, Some(index as u64)),
            Refusal::Entry { index } => (4, Some(index as u64)),
            Refusal::TextLength => (5, None),
            Refusal::IllFormed { place, .. } => (6, Some(place as u64)),
            Refusal::Characters { place } => (7, Some(place as u64)),
            Refusal::Room { needed } => (8, Some(needed as u64)),
            Refusal::NotScalar { number } => (9, Some(number.into())),
            Refusal::Change { code_point } => (10, Some(code_point.into())),
            Refusal::Profiles => (11, None),
            Refusal::Buffer { needed } => (12, Some(needed as u64)),
            Refusal::Shape => (13, None),
            Refusal::Mark { place } => (14, Some(place as u64)),
        }
    }

    /// Every refusal; those that carry something carry the first number, or both.
    fn all([first, second]: [u64; 2]) -> [Refusal; 14] {
        let (size, number) = (first as usize, first as u32);
        [
            Refusal::Length,
            Refusal::Header,
            Refusal::Range { index: size },
            Refusal::Entry { index: size },
            Refusal::TextLength,
            Refusal::IllFormed { place: size, len: second as usize },
            Refusal::Characters { place: size },
            Refusal::Room { needed: size },
            Refusal::NotScalar { number },
            Refusal::Change { code_point: number },
            Refusal::Profiles,
            Refusal::Buffer { needed: size },
            Refusal::Shape,
            Refusal::Mark { place: size },
        ]
    }

    /// The refusal with this number, which the library gave, and this to carry, if it carries anything.
    fn named(number: u32, carried: [u64; 2]) -> Refusal {
        let refusal = Refusal::all(carried).into_iter().find(|r| r.number() == number);
        refusal.expect("the library gives refusals 1 to 14")
    }

    /// The refusal's number, 1 to 14.
    pub fn number(&self) -> u32 {
        self.row().0
    }

    /// The refusal's name, without what it carries: `IllFormed`. In C it is what `luffinarc_refusal_name` gives.
    pub fn name(&self) -> &'static str {
        match self {
            Refusal::Length => "Length",
            Refusal::Header => "Header",
            Refusal::Range { .. } => "Range",
            Refusal::Entry { .. } => "Entry",
            Refusal::TextLength => "TextLength",
            Refusal::IllFormed { .. } => "IllFormed",
            Refusal::Characters { .. } => "Characters",
            Refusal::Room { .. } => "Room",
            Refusal::NotScalar { .. } => "NotScalar",
            Refusal::Change { .. } => "Change",
            Refusal::Profiles => "Profiles",
            Refusal::Buffer { .. } => "Buffer",
            Refusal::Shape => "Shape",
            Refusal::Mark { .. } => "Mark",
        }
    }

    /// What the refusal says, without what it carries: `range 7 is bad`, as it is displayed, is `a range is bad` here.
    /// In C it is what `luffinarc_refusal_text` gives.
    pub fn text(&self) -> &'static str {
        match self {
            Refusal::Length => "the image has a wrong length",
            Refusal::Header => "the image's header is wrong or a count is too large",
            Refusal::Range { .. } => "a range is bad",
            Refusal::Entry { .. } => "a profile entry is bad",
            Refusal::TextLength => "the text is too long",
            Refusal::IllFormed { .. } => "ill-formed UTF-8",
            Refusal::Characters { .. } => "no token begins here",
            Refusal::Room { .. } => "more room is needed",
            Refusal::NotScalar { .. } => "the number is no scalar value",
            Refusal::Change { .. } => "a code point has a class that it may not change to",
            Refusal::Profiles => "the images have unequal profiles",
            Refusal::Buffer { .. } => "a larger buffer is needed",
            Refusal::Shape => "a list, a place or a start does not fit",
            Refusal::Mark { .. } => "a direction mark parts a token",
        }
    }

    /// The numbers that the refusal carries: place and length of [`Refusal::IllFormed`], one number or none of others.
    pub fn carried(&self) -> impl Iterator<Item = u64> {
        let second = match *self {
            Refusal::IllFormed { len, .. } => Some(len as u64),
            _ => None,
        };
        self.row().1.into_iter().chain(second)
    }
}

/// Shows what the refusal says, with what it carries.
impl fmt::Display for Refusal {
    fn fmt(&self, f: &mut fmt::Formatter<'_>) -> fmt::Result {
        match self {
            Refusal::Range { index } => write!(f, "range {index} is bad"),
            Refusal::Entry { index } => write!(f, "profile entry {index} is bad"),
            Refusal::IllFormed { place, len } => {
                write!(f, "ill-formed UTF-8 at byte {place}, length {len}")
            }
            Refusal::Characters { place } => write!(f, "no token begins at byte {place}"),
            Refusal::Room { needed } => write!(f, "room for {needed} records is needed"),
            Refusal::NotScalar { number } => write!(f, "{number:X} hex is no scalar value"),
            Refusal::Change { code_point } => {
                write!(f, "U+{code_point:04X} has a class that it may not change to")
            }
            Refusal::Buffer { needed } => write!(f, "a buffer of {needed} bytes is needed"),
            Refusal::Mark { place } => {
                write!(f, "the direction mark at byte {place} parts a token")
            }
            Refusal::Length
            | Refusal::Header
            | Refusal::TextLength
            | Refusal::Profiles
            | Refusal::Shape => f.write_str(self.text()),
        }
    }
}

impl std::error::Error for Refusal {}

/// The answer, or the refusal with this number.
pub(crate) fn result(number: u32, answer: Answer) -> Result<Answer, Refusal> {
    if number == 0 {
        Ok(answer)
    } else {
        Err(Refusal::named(number, [answer[0], answer[1]]))
    }
}

/// Why a call on two images refused: an image of the two, or the pair.
#[derive(Clone, Copy, Debug, PartialEq, Eq, Hash)]
pub enum PairRefusal {
    /// The older image is refused.
    Older(Refusal),
    /// The newer image is refused, the older is not.
    Newer(Refusal),
    /// Both images are accepted, and the pair is refused.
    Pair(Refusal),
}

impl PairRefusal {
    /// The refusal, of whichever image.
    pub fn refusal(&self) -> Refusal {
        match *self {
            PairRefusal::Older(r) | PairRefusal::Newer(r) | PairRefusal::Pair(r) => r,
        }
    }
}

impl fmt::Display for PairRefusal {
    fn fmt(&self, f: &mut fmt::Formatter<'_>) -> fmt::Result {
        match self {
            PairRefusal::Older(refusal) => write!(f, "the older image: {refusal}"),
            PairRefusal::Newer(refusal) => write!(f, "the newer image: {refusal}"),
            PairRefusal::Pair(refusal) => write!(f, "{refusal}"),
        }
    }
}

impl std::error::Error for PairRefusal {}

/// The answer of a call on two images, or the refusal with this number, of the image that the answer tells.
pub(crate) fn pair_result(number: u32, answer: Answer) -> Result<Answer, PairRefusal> {
    result(number, answer).map_err(|refusal| match answer[2] {
        1 => PairRefusal::Older(refusal),
        2 => PairRefusal::Newer(refusal),
        _ => PairRefusal::Pair(refusal),
    })
}
