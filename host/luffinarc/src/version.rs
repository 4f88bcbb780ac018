//! The version of an image.

use std::error::Error;
use std::fmt;
use std::str::FromStr;

/// The version of an image, of Unicode a.b.c: its word is a·65,536 + b·256 + c. Every word is some version, and versions
/// are in the order of their words.
///
/// ```
/// use luffinarc::Version;
///
/// let version: Version = "16.0.0".parse().unwrap();
/// assert_eq!(version, Version::new(16, 0, 0));
/// assert_eq!(version.word(), 1_048_576);
/// assert_eq!(version.to_string(), "16.0.0");
/// assert!(version > Version::from(983_297));
/// ```
#[derive(Clone, Copy, Debug, PartialEq, Eq, PartialOrd, Ord, Hash)]
pub struct Version(u32);

impl Version {
    /// The version a.b.c.
    pub const fn new(major: u16, minor: u8, update: u8) -> Version {
        Version(major as u32 * 65_536 + minor as u32 * 256 + update as u32)
    }

    /// The version word.
    pub const fn word(self) -> u32 {
        self.0
    }

    /// The first number, a.
    pub const fn major(self) -> u16 {
        (self.0 >> 16) as u16
    }

    /// The second number, b.
    pub const fn minor(self) -> u8 {
        (self.0 >> 8) as u8
    }

    /// The third number, c.
    pub const fn update(self) -> u8 {
        self.0 as u8
    }
}

/// The version with this word.
impl From<u32> for Version {
    fn from(word: u32) -> Version {
        Version(word)
    }
}

/// The version's word.
impl From<Version> for u32 {
    fn from(version: Version) -> u32 {
        version.0
    }
}

/// Shows a.b.c.
impl fmt::Display for Version {
    fn fmt(&self, f: &mut fmt::Formatter<'_>) -> fmt::Result {
        f.pad(&format!("{}.{}.{}", self.major(), self.minor(), self.update()))
    }
}

/// The text is no version a.b.c.
#[derive(Clone, Copy, Debug, PartialEq, Eq, Hash)]
pub struct NoVersion;

impl fmt::Display for NoVersion {
    fn fmt(&self, f: &mut fmt::Formatter<'_>) -> fmt::Result {
        f.write_str("not a version a.b.c of three numbers, as 16.0.0")
    }
}

impl Error for NoVersion {}

/// A number of decimal digits alone. (`parse` would take a sign before them.)
fn number<T: FromStr>(digits: &str) -> Result<T, NoVersion> {
    if digits.bytes().all(|byte| byte.is_ascii_digit()) {
        digits.parse().map_err(|_| NoVersion)
    } else {
        Err(NoVersion)
    }
}

/// Reads a.b.c: three numbers of decimal digits, at most 65,535, 255 and 255.
impl FromStr for Version {
    type Err = NoVersion;

    fn from_str(text: &str) -> Result<Version, NoVersion> {
        let parts: Vec<&str> = text.split('.').collect();
        match parts[..] {
            [a, b, c] => Ok(Version::new(number(a)?, number(b)?, number(c)?)),
            _ => Err(NoVersion),
        }
    }
}
