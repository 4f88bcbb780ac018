//! The named refusals, their numbers and what they carry.

#[derive(Clone, Copy, Debug, PartialEq, Eq)]
pub enum Refusal {
    /// 1: the image is too short or too long, or not of the header's total length.
    Length,
    /// 2: a word of the image's header is wrong, or a count is above its limit.
    Header,
    /// 3: a range is bad; the index of the first bad one.
    Range(u64),
    /// 4: a profile entry is bad; the index of the first bad one.
    Entry(u64),
    /// 5: the text is too long.
    TextLength,
    /// 6: no well-formed UTF-8 sequence begins at this byte place, the first such; the length of the maximal subpart
    /// there.
    IllFormed { place: u64, len: u64 },
    /// 7: no token begins at this byte place, after the longest run of tokens.
    Characters(u64),
    /// 8: more room is needed; the number of records.
    Room(u64),
    /// 9: the number is no scalar value.
    NotScalar(u64),
    /// 10: a forbidden change; the smallest code point with one.
    Change(u64),
    /// 11: the profile sections are unequal.
    Profiles,
    /// 12: the buffer for an image is too short; the bytes needed.
    Buffer(u64),
    /// 13: a list of words is no multiple of its record's words, or a place lies past the text's end, or a start after
    /// an end.
    Shape,
    /// 14: the mark at this byte place, the first such, parts a token: with it taken out, none ends there.
    Mark(u64),
}

impl Refusal {
    /// The number, and what the refusal carries.
    fn row(&self) -> (u32, Vec<u64>) {
        match *self {
            Refusal::Length => (1, vec![]),
            Refusal::Header => (2, vec![]),
            Refusal::Range(index) => (3, vec![index]),
            Refusal::Entry(index) => (4, vec![index]),
            Refusal::TextLength => (5, vec![]),
            Refusal::IllFormed { place, len } => (6, vec![place, len]),
            Refusal::Characters(place) => (7, vec![place]),
            Refusal::Room(needed) => (8, vec![needed]),
            Refusal::NotScalar(number) => (9, vec![number]),
            Refusal::Change(point) => (10, vec![point]),
            Refusal::Profiles => (11, vec![]),
            Refusal::Buffer(needed) => (12, vec![needed]),
            Refusal::Shape => (13, vec![]),
            Refusal::Mark(place) => (14, vec![place]),
        }
    }

    /// Every refusal; those that carry something carry the first number, or both.
    fn all([first, second]: [u64; 2]) -> [Refusal; 14] {
        [
            Refusal::Length,
            Refusal::Header,
            Refusal::Range(first),
            Refusal::Entry(first),
            Refusal::TextLength,
            Refusal::IllFormed { place: first, len: second },
            Refusal::Characters(first),
            Refusal::Room(first),
            Refusal::NotScalar(first),
            Refusal::Change(first),
            Refusal::Profiles,
            Refusal::Buffer(first),
            Refusal::Shape,
            Refusal::Mark(first),
        ]
    }

    /// The refusal with this number, if one has it, and the first of these to carry, or both, if it carries anything.
    pub fn named(number: u32, carried: [u64; 2]) -> Option<Refusal> {
        Refusal::all(carried).into_iter().find(|refusal| refusal.number() == number)
    }

    /// The refusal's number, 1 to 14.
    pub fn number(&self) -> u32 {
        self.row().0
    }

    /// The numbers that the refusal carries.
    pub fn carried(&self) -> Vec<u64> {
        self.row().1
    }
}

/// `refused`, the number and what it carries.
impl std::fmt::Display for Refusal {
    fn fmt(&self, f: &mut std::fmt::Formatter) -> std::fmt::Result {
        write!(f, "refused {}", self.number())?;
        self.carried().iter().try_for_each(|carried| write!(f, " {carried}"))
    }
}

/// A refusal of the pair check: of one image, telling which, or of the pair.
#[derive(Clone, Copy, Debug, PartialEq, Eq)]
pub enum PairRefusal {
    Older(Refusal),
    Newer(Refusal),
    Pair(Refusal),
}

impl std::fmt::Display for PairRefusal {
    fn fmt(&self, f: &mut std::fmt::Formatter) -> std::fmt::Result {
        match self {
            PairRefusal::Older(refusal) => write!(f, "older {refusal}"),
            PairRefusal::Newer(refusal) => write!(f, "newer {refusal}"),
            PairRefusal::Pair(refusal) => write!(f, "{refusal}"),
        }
    }
}
