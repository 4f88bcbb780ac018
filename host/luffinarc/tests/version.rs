//! Versions: their words, parts and texts.

use luffinarc::{NoVersion, Version};

/// Words about the bounds of each part, and some between.
fn words() -> impl Iterator<Item = u32> {
    let parts = [0u32, 1, 2, 9, 10, 16, 99, 100, 127, 128, 254, 255];
    let majors = parts.into_iter().chain([256, 257, 999, 32_768, 65_534, 65_535]);
    majors.flat_map(move |major| {
        let rest = parts.into_iter().flat_map(move |minor| parts.map(|update| (minor, update)));
        rest.map(move |(minor, update)| major * 65_536 + minor * 256 + update)
    })
}

#[test]
fn word_parts_and_text_agree() {
    for word in words() {
        let version = Version::from(word);
        let (major, minor, update) = (version.major(), version.minor(), version.update());
        assert_eq!((version.word(), u32::from(version)), (word, word));
        assert_eq!(Version::new(major, minor, update), version);
        assert_eq!(version.to_string(), format!("{major}.{minor}.{update}"));
        assert_eq!(version.to_string().parse(), Ok(version));
        let digits = [major.into(), minor.into(), u32::from(update)];
        assert_eq!(digits, [word / 65_536, word / 256 % 256, word % 256]);
    }
}

#[test]
fn versions_are_in_the_order_of_their_words() {
    let all: Vec<u32> = words().collect();
    assert!(all.windows(2).all(|two| two[0] < two[1]));
    assert!(all.windows(2).all(|two| Version::from(two[0]) < Version::from(two[1])));
}

#[test]
fn texts_that_are_versions() {
    const UNICODE_16: Version = Version::new(16, 0, 0);
    assert_eq!("16.0.0".parse(), Ok(UNICODE_16));
    assert_eq!(UNICODE_16.word(), 1_048_576);
    assert_eq!("0.0.0".parse(), Ok(Version::from(0)));
    assert_eq!("65535.255.255".parse(), Ok(Version::from(u32::MAX)));
    // Zeros before a number change nothing.
    assert_eq!("0000016.000.00".parse(), Ok(UNICODE_16));
}

/// Texts that are no version.
const NONE: [&str; 32] = [
    "",
    ".",
    "..",
    "...",
    "16",
    "16.",
    "16.0",
    "16.0.",
    ".16.0",
    "16..0",
    "16.0.0.1",
    "16.0.0.",
    "+1.0.0",
    "1.+0.0",
    "-1.0.0",
    "1.0.-0",
    "65536.0.0",
    "1.256.0",
    "1.0.256",
    "99999999999999999999.0.0",
    " 16.0.0",
    "16.0.0 ",
    "16. 0.0",
    "16.0.0\n",
    "v16.0.0",
    "16,0,0",
    "16.0.x",
    "0x10.0.0",
    "1_6.0.0",
    "१६.०.०",
    "１６.０.０",
    "16.0.0\0",
];

#[test]
fn texts_that_are_none() {
    for text in NONE {
        assert_eq!(text.parse::<Version>(), Err(NoVersion), "{text:?}");
    }
    assert_eq!(NoVersion.to_string(), "not a version a.b.c of three numbers, as 16.0.0");
}

#[test]
fn a_version_is_padded() {
    assert_eq!(
        format!("{:>8}|{:<8}|", Version::new(16, 0, 0), Version::new(9, 0, 1)),
        "  16.0.0|9.0.1   |"
    );
}
