//! Every scalar value, encoded by the standard library, is read as itself: by an image that has it alone, and by one
//! that has all the others.

use luffinarc::RECORD_WORDS;
use luffinarc_reader::cases::image_of;
use luffinarc_reader::image::{Image as Made, Range};
use luffinarc_reader::{class, kind, Calls, Profile, Reader, Refusal, Token};
use luffinarc_tests::Library;

/// The number of scalar values.
const SCALAR_VALUES: usize = 1_112_064;

/// The signs, which begin hashtags and go on in none.
const SIGNS: [u32; 3] = [0x23, 0xFE5F, 0xFF03];

/// An image of ranges of Start, each from its first to before its end; empty ones are left out.
fn starts(bounds: &[(u32, u32)]) -> Vec<u8> {
    let bounds = bounds.iter().filter(|(first, end)| first < end);
    let range = |&(first, end): &(u32, u32)| Range { first, last: end - 1, class: class::START };
    image_of(&Made { version: 1, ranges: bounds.map(range).collect(), profile: Profile::of(&[]) })
}

/// The image that has x alone.
fn alone(x: u32) -> Vec<u8> {
    starts(&[(x, x + 1)])
}

/// The image that has every scalar value but x.
fn all_but(x: u32) -> Vec<u8> {
    let cut = |(first, end): (u32, u32)| [(first, end.min(x)), (first.max(x + 1), end)];
    let bounds = [cut((0, 0xD800)), cut((0xE000, 0x110000))].concat();
    let others: u32 = bounds.iter().map(|&(first, end)| end.saturating_sub(first)).sum();
    assert_eq!(others as usize, SCALAR_VALUES - 1, "{x:X}");
    starts(&bounds)
}

/// Runs a test on every scalar value with its bytes.
fn every_value(test: impl Fn(u32, &[u8])) {
    let mut values = 0;
    for c in (0..=0x10FFFF).filter_map(char::from_u32) {
        test(c.into(), c.encode_utf8(&mut [0; 4]).as_bytes());
        values += 1;
    }
    assert_eq!(values, SCALAR_VALUES);
}

/// The text of a number sign and these bytes.
fn after_sign(bytes: &[u8]) -> Vec<u8> {
    [b"#", bytes].concat()
}

/// Where x alone is Start, its bytes are one identifier, and after a number sign one hashtag unless x is a sign.
fn read_alone(calls: &impl Calls) {
    every_value(|x, bytes| {
        let (image, length) = (alone(x), bytes.len());
        assert_eq!(calls.count(&image, bytes), Ok(1), "{x:X}");
        let mut words = [7; RECORD_WORDS];
        let count = calls.list(&image, bytes, &mut words);
        assert_eq!((count, words), (Ok(1), [kind::IDENTIFIER, 0, length as u32, 1]), "{x:X}");
        let token = Token { kind: kind::IDENTIFIER, start: 0, end: length };
        assert_eq!(calls.at(&image, bytes, 0), Ok(Some(token)), "{x:X}");
        let mut words = [7; RECORD_WORDS];
        let count = calls.hashtags(&image, &after_sign(bytes), &mut words);
        if SIGNS.contains(&x) {
            assert_eq!((count, words), (Ok(0), [7; RECORD_WORDS]), "{x:X}");
        } else {
            let tag = [kind::HASHTAG, 0, 1 + length as u32, 1];
            assert_eq!((count, words), (Ok(1), tag), "{x:X}");
        }
    });
}

/// Where all but x are Start, its bytes are refused, and are no hashtag after a number sign.
fn read_among_others(calls: &impl Calls) {
    every_value(|x, bytes| {
        let image = all_but(x);
        assert_eq!(calls.count(&image, bytes), Err(Refusal::Characters(0)), "{x:X}");
        assert_eq!(calls.at(&image, bytes, 0), Err(Refusal::Characters(0)), "{x:X}");
        assert_eq!(calls.hashtags(&image, &after_sign(bytes), &mut []), Ok(0), "{x:X}");
    });
}

#[test]
fn alone_by_the_library() {
    read_alone(&Library);
}

#[test]
fn alone_by_the_reader() {
    read_alone(&Reader);
}

#[test]
fn among_others_by_the_library() {
    read_among_others(&Library);
}

#[test]
fn among_others_by_the_reader() {
    read_among_others(&Reader);
}
