//! A profile of 74 entries on real words: a settings script in Thai and Tibetan, under Unicode 16.0. The library against
//! the independent reader, and against tokens spelled out here.

use luffinarc::{write_image, Image, Kind, Profile, Refusal, Role, RECORD_WORDS};
use luffinarc_reader::image::{parse, parse_within};
use luffinarc_reader::{Calls, Reader};
use luffinarc_tests::{data, say, Library};

/// The profile's entries.
fn entries() -> Vec<(u32, Role)> {
    let file = concat!(env!("CARGO_MANIFEST_DIR"), "/../data/profiles/thai-tibetan.profile");
    luffinarc_maker::read_profile(file.as_ref()).unwrap()
}

/// The image of Unicode 16.0 with the profile.
fn with_profile() -> Vec<u8> {
    let bytes = data("images/unicode-16.0.img");
    let plain = Image::check(&bytes).unwrap();
    write_image(plain.version(), &plain.ranges(), &Profile::new(&entries())).unwrap()
}

fn text() -> String {
    String::from_utf8(data("texts/thai-tibetan.txt")).unwrap()
}

/// The profile has more entries than readers took before, and all are good. Each makes a difference: a name begins with
/// its code point, or goes on with it, that is none without the profile.
#[test]
fn more_than_64_entries() {
    let bytes = data("images/unicode-16.0.img");
    let (image, plain) = (with_profile(), Image::check(&bytes).unwrap());
    assert_eq!(entries().len(), 74);
    assert_eq!(Library.check(&image).unwrap().entries, 74);
    assert_eq!(parse_within(64, &image), Err(luffinarc_reader::Refusal::Header));
    assert_eq!(parse(&image).unwrap().profile.used, 74);
    let checked = Image::check(&image).unwrap();
    assert!(checked.profile().entries().eq(entries()));
    for (point, role) in entries() {
        let c = char::from_u32(point).unwrap();
        let name = if role == Role::Start { c.to_string() } else { format!("ก{c}ก") };
        assert_eq!(checked.count(&name), Ok(1), "{point:X}");
        assert_ne!(plain.count(&name), Ok(1), "{point:X}");
    }
}

/// Count, lists and the token at every place are the reader's; every entry of the profile stands in the text.
#[test]
fn every_call() {
    let (image, text) = (with_profile(), text());
    let count = Library.count(&image, text.as_bytes());
    assert_eq!(count, Reader.count(&image, text.as_bytes()));
    let mut words = vec![7; RECORD_WORDS * text.len()];
    let mut expected = words.clone();
    assert_eq!(Library.list(&image, text.as_bytes(), &mut words), count);
    assert_eq!(Reader.list(&image, text.as_bytes(), &mut expected), count);
    assert!(words == expected);
    let tags = Library.hashtags(&image, text.as_bytes(), &mut words);
    assert_eq!(tags, Reader.hashtags(&image, text.as_bytes(), &mut expected));
    assert!(words == expected);
    for place in 0..=text.len() + 1 {
        let taken = Library.at(&image, text.as_bytes(), place);
        assert_eq!(taken, Reader.at(&image, text.as_bytes(), place), "{place}");
    }
    for (point, _) in entries() {
        assert!(text.contains(char::from_u32(point).unwrap()), "{point:X}");
    }
    let (count, tags) = (count.unwrap(), tags.unwrap());
    say(&format!("Thai and Tibetan: {count} tokens, {tags} hashtags in {} bytes", text.len()));
    assert_eq!((count, tags), (875, 6));
}

/// The tokens of a line of the text that are no blanks, under an image.
fn tokens<'a>(image: &[u8], line: &'a str) -> Result<Vec<&'a str>, Refusal> {
    assert!(text().lines().any(|of_text| of_text == line), "{line}");
    let image = Image::check(image).unwrap();
    let tokens = image.tokens(line)?.filter(|token| token.kind != Kind::Blank);
    Ok(tokens.map(|token| &line[token.range]).collect())
}

/// A line, its tokens with the profile, and its tokens or the refusal without.
type Case<'a> = (&'a str, &'a [&'a str], Result<&'a [&'a str], Refusal>);

/// Some lines, with the profile and without.
#[test]
fn lines() {
    let (image, plain) = (with_profile(), data("images/unicode-16.0.img"));
    let refused = |place| Err(Refusal::Characters { place });
    let abbreviated = ["พฤ", ".", "=", "วันพฤหัสบดี", ";"];
    let cases: [Case; 9] = [
        ("วันอาทิตย์ = ๑;", &["วันอาทิตย์", "=", "๑", ";"], refused(33)),
        ("พฤ. = วันพฤหัสบดี;", &abbreviated, Ok(&abbreviated)),
        ("ม.ค = { มกราคม, ๓๑ };", &["ม.ค", "=", "{", "มกราคม", ",", "๓๑", "}", ";"], refused(32)),
        ("[th_TH.day]", &["[", "th_TH.day", "]"], Ok(&["[", "th_TH", ".", "day", "]"])),
        ("฿๑๐๐ = พ.ศ;", &["฿๑๐๐", "=", "พ.ศ", ";"], refused(0)),
        ("གཟའ་ཉི་མ = { ཉི, ༡ };", &["གཟའ་ཉི་མ", "=", "{", "ཉི", ",", "༡", "}", ";"], refused(9)),
        ("ཟླ་༡༠ = ཟླ་བ་བཅུ་པ;", &["ཟླ་༡༠", "=", "ཟླ་བ་བཅུ་པ", ";"], refused(6)),
        ("#วันอาทิตย์ #ม.ค #๑มกราคม", &["#", "วันอาทิตย์", "#", "ม.ค", "#", "๑มกราคม"], refused(42)),
        ("#ཟླ་༡ #གཟའ་ཉི་མ #༡༪", &["#", "ཟླ་༡", "#", "གཟའ་ཉི་མ", "#", "༡༪"], refused(7)),
    ];
    for (line, with, without) in cases {
        assert_eq!(tokens(&image, line), Ok(with.to_vec()));
        assert_eq!(tokens(&plain, line), without.map(<[_]>::to_vec));
    }
    assert_eq!(Library.count(&plain, text().as_bytes()), Reader.count(&plain, text().as_bytes()));
    assert!(Library.count(&plain, text().as_bytes()).is_err());
}

/// A tsheg after the last syllable, and two together, are in no name: medials stand between Continue.
#[test]
fn tsheg_between_syllables_alone() {
    let bytes = with_profile();
    let image = Image::check(&bytes).unwrap();
    assert_eq!(image.count("གཟའ་ཉི་མ"), Ok(1));
    assert_eq!(image.count("གཟའ་ཉི་མ་"), Err(Refusal::Characters { place: 24 }));
    assert_eq!(image.count("ཟླ་་བ"), Err(Refusal::Characters { place: 6 }));
    assert_eq!(image.count("་ཟླ"), Err(Refusal::Characters { place: 0 }));
}

/// Hashtags: digits and half digits are in them, full stop and tsheg, which are medials, are not.
#[test]
fn tags() {
    let (text, image, plain) = (text(), with_profile(), data("images/unicode-16.0.img"));
    let tags = |image: &[u8]| -> Vec<String> {
        let found = Image::check(image).unwrap().hashtags(&text).unwrap();
        found.into_iter().map(|tag| text[tag.range].to_string()).collect()
    };
    assert_eq!(tags(&image), ["#วันอาทิตย์", "#ม", "#๑มกราคม", "#ཟླ", "#གཟའ", "#༡༪"]);
    assert_eq!(tags(&plain), ["#วันอาทิตย์", "#ม", "#๑มกราคม", "#ཟླ", "#གཟའ", "#༡"]);
}
