//! Refusal 6 against the standard library: the place, and the length of the maximal subpart there.

use luffinarc::{Image, RECORD_WORDS};
use luffinarc_reader::cases::{image_of, Rng};
use luffinarc_reader::image::{Image as Made, Range};
use luffinarc_reader::{class, Calls, Profile, Reader, Refusal};
use luffinarc_tests::{data, named, runs, say, Library};

/// The bytes at the bounds of Table 3-7 and beside them, and two others.
const BYTES: [u8; 26] = [
    0x00, 0x41, 0x7F, 0x80, 0x8F, 0x90, 0x9F, 0xA0, 0xB5, 0xBF, 0xC0, 0xC1, 0xC2, 0xDF, 0xE0, 0xE1,
    0xEC, 0xED, 0xEE, 0xEF, 0xF0, 0xF1, 0xF3, 0xF4, 0xF5, 0xFF,
];

/// The texts of at most four of these bytes, and how many are well-formed or have a subpart of 1, 2 or 3 bytes.
const TEXTS: usize = 1 + 26 + 26 * 26 + 26 * 26 * 26 + 26 * 26 * 26 * 26;
const FORMS: [usize; 4] = [3537, 434_905, 33_432, 3381];

/// Well-formed text in several scripts: sequences of each length.
const SCRIPTS: [&str; 9] = [
    "let x_1 = 42; ",
    "zażółć gęślą jaźń ",
    "ελληνικά ",
    "עברית ",
    "हिन्दी ",
    "日本語のテキスト",
    "한국어 ",
    "𞤣𞤮𞤼𞥅𞤢𞤤 ",
    "👩‍💻🙂",
];

/// The number of a text's characters, or the refusal, as the standard library tells them.
fn by_std(text: &[u8]) -> Result<usize, Refusal> {
    let error = match std::str::from_utf8(text) {
        Ok(text) => return Ok(text.chars().count()),
        Err(error) => error,
    };
    let place = error.valid_up_to();
    let len = error.error_len().unwrap_or(text.len() - place);
    Err(Refusal::IllFormed { place: place as u64, len: len as u64 })
}

/// The refusal where no sequence begins at a place of a text.
fn by_std_at(text: &[u8], from: usize) -> Option<Refusal> {
    match by_std(&text[from..]) {
        Err(Refusal::IllFormed { place: 0, len }) => {
            Some(Refusal::IllFormed { place: from as u64, len })
        }
        _ => None,
    }
}

/// Refusal 6, if a call gave it.
fn six<T>(result: Result<T, Refusal>) -> Option<Refusal> {
    result.err().filter(|refusal| refusal.number() == 6)
}

/// Counting and listing tokens and listing hashtags are refused with 6 where the standard library says so, and nowhere
/// else.
fn compare(calls: &impl Calls, image: &[u8], text: &[u8]) {
    let expected = by_std(text).err();
    assert_eq!(six(calls.count(image, text)), expected, "{text:02X?}");
    let mut words = vec![7; RECORD_WORDS * text.len()];
    assert_eq!(six(calls.list(image, text, &mut words)), expected, "{text:02X?}");
    let mut tags = vec![7; RECORD_WORDS * text.len()];
    let tagged = calls.hashtags(image, text, &mut tags);
    assert_eq!(tagged.err(), expected, "{text:02X?}");
    words.extend(tags);
    assert!(expected.is_none() || words.iter().all(|&word| word == 7), "{text:02X?}");
}

/// So is taking one token at a place.
fn compare_at(calls: &impl Calls, image: &[u8], text: &[u8], place: usize) {
    let expected = by_std_at(text, place);
    assert_eq!(six(calls.at(image, text, place)), expected, "{text:02X?} at {place}");
}

/// An image in which every scalar value is a token, and one in which none is.
fn images() -> [Vec<u8>; 2] {
    let range = |first, last| Range { first, last, class: class::SYNTAX };
    let ranges = vec![range(0, 0xD7FF), range(0xE000, 0x10FFFF)];
    let none = Made { version: 1, ranges: vec![], profile: Profile::of(&[]) };
    [image_of(&Made { ranges, ..none.clone() }), image_of(&none)]
}

/// Adds a text to how many are well-formed and how many have a subpart of 1, 2 and 3 bytes.
fn add(forms: &mut [usize; 4], text: &[u8]) {
    match by_std(text) {
        Err(Refusal::IllFormed { len, .. }) => forms[len as usize] += 1,
        _ => forms[0] += 1,
    }
}

/// Compares every text of at most four of the bytes, and its places.
fn short_texts(calls: &impl Calls) {
    let images = images();
    let mut forms = [0; 4];
    for length in 0..=4 {
        for number in 0..BYTES.len().pow(length) {
            let byte = |i| BYTES[number / BYTES.len().pow(i) % BYTES.len()];
            let text: Vec<u8> = (0..length).map(byte).collect();
            images.iter().for_each(|image| compare(calls, image, &text));
            (0..text.len()).for_each(|place| compare_at(calls, &images[0], &text, place));
            add(&mut forms, &text);
        }
    }
    assert_eq!((forms, forms.iter().sum()), (FORMS, TEXTS));
}

#[test]
fn short_texts_by_the_library() {
    short_texts(&Library);
}

#[test]
fn short_texts_by_the_reader() {
    short_texts(&Reader);
}

/// Every two bytes with some after them, by the safe types.
#[test]
fn every_two_bytes() {
    let [bytes, _] = images();
    let image = Image::check(&bytes).unwrap();
    let tails: [&[u8]; 12] = [
        &[],
        &[0x80],
        &[0x80, 0x80],
        &[0xBF, 0xBF],
        &[0x41],
        &[0x80, 0x41],
        &[0xC2],
        &[0xFF],
        &[0x7F],
        &[0xC0],
        &[0x80, 0x7F],
        &[0x80, 0xC0],
    ];
    for front in 0..=0xFFFFu16 {
        for tail in tails {
            let text = [&front.to_be_bytes()[..], tail].concat();
            let expected = by_std(&text);
            assert_eq!(image.count(&text).map_err(named), expected, "{text:02X?}");
            assert_eq!(image.tokens(&text).map(|t| t.len()).map_err(named), expected);
            let tagged = image.hashtags(&text).map_err(named);
            assert_eq!(tagged.err(), expected.err(), "{text:02X?}");
            let second = image.token_at(&text, 1).map_err(named);
            assert_eq!(six(second), by_std_at(&text, 1), "{text:02X?}");
        }
    }
}

/// Text in some of the scripts, with a byte or more taken out, changed or put in, or cut.
fn damaged(rng: &mut Rng) -> Vec<u8> {
    let most = if rng.once_in(20) { 400 } else { 6 };
    let pieces = 1 + rng.below(most);
    let mut text: Vec<u8> = (0..pieces).flat_map(|_| rng.pick(&SCRIPTS).bytes()).collect();
    for _ in 0..1 + rng.below(3) {
        let (place, any) = (rng.below(text.len()), rng.word() as u8);
        match rng.below(5) {
            0 => drop(text.remove(place)),
            1 => text[place] = any,
            2 => text.insert(place, any),
            3 => text.insert(place, *rng.pick(&BYTES)),
            _ => text.truncate(place + 1),
        }
        if text.is_empty() {
            return text;
        }
    }
    text
}

/// Places of a text: its first bytes and its last, those about its first ill-formed place, and some others.
fn places(rng: &mut Rng, text: &[u8]) -> Vec<usize> {
    let fault = std::str::from_utf8(text).map_or_else(|error| error.valid_up_to(), |_| 0);
    let mut places: Vec<usize> = (0..4).chain(fault.saturating_sub(4)..fault + 5).collect();
    places.extend(text.len().saturating_sub(4)..text.len());
    places.extend((0..4).map(|_| rng.below(text.len() + 1)));
    places.retain(|&place| place < text.len());
    places
}

#[test]
fn damaged_texts() {
    let [syntax, none] = images();
    let images = [syntax, none, data("images/m2.img"), data("images/unicode-16.0.img")];
    let (mut rng, mut forms, runs) = (Rng::seeded(601), [0; 4], runs(4000));
    for _ in 0..runs {
        let text = damaged(&mut rng);
        let places = places(&mut rng, &text);
        let image = rng.pick(&images);
        compare(&Library, image, &text);
        compare(&Reader, image, &text);
        for place in places {
            compare_at(&Library, image, &text, place);
            compare_at(&Reader, image, &text, place);
        }
        add(&mut forms, &text);
    }
    let [well_formed, one, two, three] = forms;
    say(&format!("damaged texts: ok: {well_formed}, length 1: {one}, 2: {two}, 3: {three}"));
    assert!(forms.iter().all(|&count| count >= runs / 50));
    assert_eq!(forms.iter().sum::<usize>(), runs);
}
