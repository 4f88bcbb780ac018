//! An image that owns its bytes, beside one that borrows them; what is read from either.

use luffinarc::{write_image, Class, Image, ImageBuf, Profile, Range, Refusal, Role, Version};

/// The bytes of an image file of the data folder.
fn data(name: &str) -> Vec<u8> {
    let folder = concat!(env!("CARGO_MANIFEST_DIR"), "/../data/images/");
    std::fs::read(format!("{folder}{name}")).unwrap()
}

/// The image M of docs/CASES.md, part by part.
fn m_parts() -> (Version, [Range; 5], Profile) {
    let range = |first: char, last: char, class| {
        let (first, last) = (first.into(), last.into());
        Range { first, last, class }
    };
    let ranges = [
        range(' ', ' ', Class::White),
        range('.', '.', Class::Syntax),
        range('0', '9', Class::Nonstart),
        range('A', 'Z', Class::Start),
        range('a', 'z', Class::Start),
    ];
    (Version::new(16, 0, 0), ranges, Profile::new(&[('.'.into(), Role::Medial)]))
}

/// Bytes that make the check give every refusal of an image, and accept some.
fn damaged() -> Vec<Vec<u8>> {
    let m = data("m.img");
    let cut = (0..m.len()).map(|end| m[..end].to_vec());
    let changed = (0..m.len()).flat_map(|i| {
        [0x01, 0x80, 0xFF].map(|bits| {
            let mut bytes = data("m.img");
            bytes[i] ^= bits;
            bytes
        })
    });
    let longer = [m.iter().copied().chain([0]).collect(), vec![0; 53_281]];
    cut.chain(changed).chain(longer).collect()
}

#[test]
fn an_owned_image_is_accepted_and_refused_as_a_borrowed_one() {
    let mut refused = [false; 15];
    for bytes in damaged() {
        let borrowed = Image::check(&bytes);
        let owned = ImageBuf::check(bytes.clone());
        assert_eq!(owned.as_ref().map(ImageBuf::as_image), borrowed.as_ref().map(|&image| image));
        let number = borrowed.err().map_or(0, |refusal| refusal.number());
        refused[number as usize] = true;
        if let Ok(image) = owned {
            assert_eq!(image.into_bytes(), bytes);
        }
    }
    let numbers: Vec<usize> = (0..15).filter(|&number| refused[number]).collect();
    assert_eq!(numbers, [0, 1, 2, 3, 4]);
}

#[test]
fn an_owned_image_answers_as_a_borrowed_one() {
    for name in ["m.img", "m2.img", "unicode-14.0.img", "unicode-16.0.img", "unicode-17.0.img"] {
        let bytes = data(name);
        let borrowed = Image::check(&bytes).unwrap();
        let owned = ImageBuf::check(bytes.clone()).unwrap();
        let image = owned.as_image();
        assert_eq!(image.as_bytes(), bytes);
        assert_eq!(image.version(), borrowed.version());
        assert_eq!(image.ranges(), borrowed.ranges());
        assert_eq!(image.profile(), borrowed.profile());
        for number in [0x20, 0x2E, 0x37, 0x61, 0xE9, 0xD800, 0x4E00, 0x10_FFFF, 0x11_0000, u32::MAX]
        {
            assert_eq!(image.lookup(number), borrowed.lookup(number));
        }
        for text in ["", "ab.c1 .", "a 1", "é", "a\u{200E}b", "#a b#c", "x\r\ny"] {
            assert_eq!(image.count(text), borrowed.count(text));
            let [one, other] =
                [image, borrowed].map(|image| image.tokens(text).map(Vec::from_iter));
            assert_eq!(one, other);
            assert_eq!(image.token_at(text, 0), borrowed.token_at(text, 0));
            assert_eq!(image.hashtags(text), borrowed.hashtags(text));
        }
        let ill = b"a\xE2\x82";
        assert_eq!(image.count(ill), Err(Refusal::IllFormed { place: 1, len: 2 }));
    }
}

#[test]
fn an_owned_image_is_a_copy() {
    let bytes = data("m.img");
    let copied = ImageBuf::from(Image::check(&bytes).unwrap());
    drop(bytes);
    assert_eq!(copied.as_image().count("ab.c1 ."), Ok(3));
    assert_eq!(copied, ImageBuf::check(data("m.img")).unwrap());
    assert_ne!(copied, ImageBuf::check(data("m2.img")).unwrap());
    assert_eq!(copied.clone().into_bytes(), data("m.img"));
}

#[test]
fn the_parts_of_an_image_are_read() {
    let bytes = data("m.img");
    let image = Image::check(&bytes).unwrap();
    let (version, ranges, profile) = m_parts();
    assert_eq!(image.version(), version);
    assert_eq!(image.ranges(), ranges);
    assert_eq!(image.profile(), profile);
    assert_eq!(write_image(version, &ranges, &profile), Ok(bytes.clone()));
    assert_eq!(write_image(version.word(), &ranges, &profile), Ok(bytes));
}

#[test]
fn the_parts_of_an_empty_image_are_read() {
    let image = ImageBuf::check(write_image(0, &[], &Profile::default()).unwrap()).unwrap();
    let image = image.as_image();
    assert_eq!((image.version(), image.ranges()), (Version::from(0), vec![]));
    assert_eq!(image.profile(), Profile::default());
    assert_eq!(image.class('a'), Class::Unassigned);
}

#[test]
fn an_image_is_shown_by_its_version_and_counts() {
    let image = ImageBuf::check(data("m.img")).unwrap();
    let shown = "Image { version: 16.0.0, ranges: 5, entries: 1 }";
    assert_eq!(format!("{:?}", image.as_image()), shown);
    assert_eq!(format!("{image:?}"), format!("ImageBuf({shown})"));
}
