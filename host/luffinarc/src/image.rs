//! Class images: an accepted image, its parts, writing one, and the pair check.

use crate::calls::{self, Answer, Entries};
use crate::names::{Class, Role};
use crate::refusal::{pair_result, result, PairRefusal, Refusal};
use crate::version::Version;
use std::fmt;

/// The most ranges that an image may have.
pub const MAX_RANGES: usize = 4096;

/// The most profile entries that an image may have.
pub const MAX_ENTRIES: usize = 512;

/// The bytes of the largest image.
pub const MAX_IMAGE: usize = 32 + 12 * MAX_RANGES + 8 * MAX_ENTRIES;

/// The words of a range in a list: first, last, class.
pub const RANGE_WORDS: usize = 3;

/// The class with a number that the library gave.
pub(crate) fn given_class(number: u32) -> Class {
    Class::from_number(number).expect("the library gives classes 0 to 5")
}

/// Code points from `first` to `last` of one class.
#[derive(Clone, Copy, Debug, PartialEq, Eq, Hash)]
pub struct Range {
    /// The first code point.
    pub first: u32,
    /// The last code point.
    pub last: u32,
    /// Their class.
    pub class: Class,
}

/// A profile: code points with roles. It has room for [`MAX_ENTRIES`], some 4 KiB, and is not copied unasked.
#[derive(Clone)]
pub struct Profile {
    points: Entries,
    roles: Entries,
    used: usize,
}

impl Profile {
    /// The profile with these entries, code point and role. Writing an image judges them: they rise, and there are at
    /// most [`MAX_ENTRIES`].
    pub fn new(entries: &[(u32, Role)]) -> Profile {
        let mut profile = Profile { used: entries.len(), ..Profile::default() };
        for (i, &(point, role)) in entries.iter().take(MAX_ENTRIES).enumerate() {
            profile.points[i] = point;
            profile.roles[i] = role.number();
        }
        profile
    }

    /// The entries: code point and role.
    pub fn entries(&self) -> impl Iterator<Item = (u32, Role)> + '_ {
        let used = self.used.min(MAX_ENTRIES);
        let role = |number| Role::from_number(number).expect("a profile has roles 1 to 5");
        (0..used).map(move |i| (self.points[i], role(self.roles[i])))
    }
}

impl Default for Profile {
    /// The profile with no entries.
    fn default() -> Profile {
        Profile { points: [0; MAX_ENTRIES], roles: [0; MAX_ENTRIES], used: 0 }
    }
}

/// Shows the entries alone.
impl fmt::Debug for Profile {
    fn fmt(&self, f: &mut fmt::Formatter) -> fmt::Result {
        f.write_str("Profile ")?;
        f.debug_list().entries(self.entries()).finish()
    }
}

impl PartialEq for Profile {
    fn eq(&self, other: &Profile) -> bool {
        self.used == other.used && self.entries().eq(other.entries())
    }
}

impl Eq for Profile {}

/// What a lookup gives.
#[derive(Clone, Copy, Debug, PartialEq, Eq, Hash)]
pub struct Found {
    /// The class after the profile.
    pub class: Class,
    /// The number of ranges that the search looked at, at most 13.
    pub looked_at: u32,
}

/// An accepted image: bytes that were checked once, and are not checked again by the calls on it.
#[derive(Clone, Copy, PartialEq, Eq, Hash)]
pub struct Image<'a> {
    // Accepted by the check, and borrowed, so that nothing changes them: the calls on a checked image ask for that.
    bytes: &'a [u8],
}

/// What the check of an image tells beside its profile.
struct Summary {
    version: Version,
    ranges: usize,
}

/// Checks an image; the profile of an accepted one takes the place of the one given.
fn checked(bytes: &[u8], profile: &mut Profile) -> Result<Summary, Refusal> {
    let mut answer = Answer::default();
    let number = calls::check(bytes, &mut profile.points, &mut profile.roles, &mut answer);
    let [version, ranges, used, _] = result(number, answer)?;
    profile.used = used as usize;
    Ok(Summary { version: Version::from(version as u32), ranges: ranges as usize })
}

impl<'a> Image<'a> {
    /// Checks an image.
    ///
    /// # Errors
    ///
    /// [`Refusal::Length`], [`Refusal::Header`], [`Refusal::Range`] or [`Refusal::Entry`], the first that
    /// applies.
    pub fn check(bytes: &'a [u8]) -> Result<Image<'a>, Refusal> {
        checked(bytes, &mut Profile::default()).map(|_| Image { bytes })
    }

    /// The image's bytes.
    pub fn as_bytes(&self) -> &'a [u8] {
        self.bytes
    }

    /// What the check tells; the image's profile takes the place of the one given.
    fn summary(&self, profile: &mut Profile) -> Summary {
        checked(self.bytes, profile).expect("an accepted image is accepted again")
    }

    /// The version. As [`profile`](Image::profile) and [`ranges`](Image::ranges), it is read from the bytes when it is
    /// asked for.
    pub fn version(&self) -> Version {
        self.summary(&mut Profile::default()).version
    }

    /// The profile.
    pub fn profile(&self) -> Profile {
        let mut profile = Profile::default();
        self.summary(&mut profile);
        profile
    }

    /// The ranges, rising.
    pub fn ranges(&self) -> Vec<Range> {
        let (mut profile, mut answer) = (Profile::default(), Answer::default());
        let mut words = vec![0; RANGE_WORDS * self.summary(&mut profile).ranges];
        let (points, roles) = (&mut profile.points, &mut profile.roles);
        let number = calls::read(self.bytes, &mut words, points, roles, &mut answer);
        assert_eq!(number, 0, "an accepted image is read, and its ranges have room");
        let range = |w: &[u32]| Range { first: w[0], last: w[1], class: given_class(w[2]) };
        words.chunks_exact(RANGE_WORDS).map(range).collect()
    }

    /// The class of a number after the profile, and how many ranges were looked at.
    ///
    /// # Errors
    ///
    /// [`Refusal::NotScalar`] for a number that is no scalar value.
    pub fn lookup(&self, number: u32) -> Result<Found, Refusal> {
        let mut answer = Answer::default();
        // Safety: the image was accepted.
        let refused = unsafe { calls::lookup_checked(self.bytes, number, &mut answer) };
        let [class, looked_at, _, _] = result(refused, answer)?;
        Ok(Found { class: given_class(class as u32), looked_at: looked_at as u32 })
    }

    /// The class of a character after the profile.
    pub fn class(&self, c: char) -> Class {
        self.lookup(c.into()).expect("a `char` is a scalar value").class
    }
}

/// Shows the version and how many ranges and profile entries there are.
impl fmt::Debug for Image<'_> {
    fn fmt(&self, f: &mut fmt::Formatter<'_>) -> fmt::Result {
        let mut profile = Profile::default();
        let Summary { version, ranges } = self.summary(&mut profile);
        let mut shown = f.debug_struct("Image");
        shown.field("version", &format_args!("{version}"));
        shown.field("ranges", &ranges).field("entries", &profile.used).finish()
    }
}

/// An accepted image that owns its bytes.
///
/// ```
/// use luffinarc::{write_image, ImageBuf, Profile, Refusal, Version};
///
/// fn load() -> Result<ImageBuf, Refusal> {
///     let bytes = write_image(Version::new(16, 0, 0), &[], &Profile::default())?;
///     ImageBuf::check(bytes)
/// }
///
/// let image = load().unwrap();
/// assert_eq!(image.as_image().count("").unwrap(), 0);
/// ```
#[derive(Clone, PartialEq, Eq, Hash)]
pub struct ImageBuf {
    // Accepted by the check, and never changed.
    bytes: Vec<u8>,
}

impl ImageBuf {
    /// Checks an image. The bytes of a refused one are dropped: [`Image::check`] only borrows them.
    ///
    /// # Errors
    ///
    /// Those of [`Image::check`].
    pub fn check(bytes: Vec<u8>) -> Result<ImageBuf, Refusal> {
        Image::check(&bytes)?;
        Ok(ImageBuf { bytes })
    }

    /// The image, which is not checked again.
    pub fn as_image(&self) -> Image<'_> {
        Image { bytes: &self.bytes }
    }

    /// The image's bytes.
    pub fn into_bytes(self) -> Vec<u8> {
        self.bytes
    }
}

/// Shows what [`Image`] shows.
impl fmt::Debug for ImageBuf {
    fn fmt(&self, f: &mut fmt::Formatter<'_>) -> fmt::Result {
        f.debug_tuple("ImageBuf").field(&self.as_image()).finish()
    }
}

/// Copies the image's bytes.
impl From<Image<'_>> for ImageBuf {
    fn from(image: Image<'_>) -> ImageBuf {
        ImageBuf { bytes: image.bytes.to_vec() }
    }
}

/// The image of a version, ranges and a profile. A version may be given as its word.
///
/// # Errors
///
/// [`Refusal::Header`] for too many ranges or entries, [`Refusal::Range`] or [`Refusal::Entry`] for a bad one.
pub fn write_image(
    version: impl Into<Version>,
    ranges: &[Range],
    profile: &Profile,
) -> Result<Vec<u8>, Refusal> {
    let word = |range: &Range| [range.first, range.last, range.class.number()];
    let words: Vec<u32> = ranges.iter().flat_map(word).collect();
    let mut out = vec![0; MAX_IMAGE];
    let mut answer = Answer::default();
    let (points, roles) = (&profile.points, &profile.roles);
    let version = version.into().word();
    let number = calls::write(version, &words, points, roles, profile.used, &mut out, &mut answer);
    let [length, _, _, _] = result(number, answer)?;
    out.truncate(length as usize);
    Ok(out)
}

/// Checks that the newer image differs from the older only by changes that Table 1 of UAX #31 permits.
///
/// # Errors
///
/// The refusal of the older image, else of the newer; [`Refusal::Profiles`], else
/// [`Refusal::Change`], of the pair.
pub fn check_pair(older: &[u8], newer: &[u8]) -> Result<(), PairRefusal> {
    let mut answer = Answer::default();
    let number = calls::pair(older, newer, &mut answer);
    pair_result(number, answer).map(|_| ())
}
