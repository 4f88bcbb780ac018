//! The calls on images against the independent reader, on made cases.

use luffinarc::{Image, Refusal, MAX_ENTRIES, RANGE_WORDS};
use luffinarc_reader::cases::*;
use luffinarc_reader::image::parse;
use luffinarc_reader::{image, role, Calls, Profile, Reader};
use luffinarc_tests::{data, runs, say, Library};

const RUNS: usize = 4000;

/// The number of scalar values.
const SCALAR_VALUES: usize = 1_112_064;

#[test]
fn checks() {
    let (mut rng, mut tally) = (Rng::seeded(101), Tally::default());
    for _ in 0..runs(RUNS) {
        let case = check_case(&mut rng);
        let result = Library.check(&case.image);
        assert_eq!(result, Reader.check(&case.image), "{case:02X?}");
        tally.add(&result);
    }
    tally.close("check", "ok,1,2,3,4");
}

#[test]
fn reads() {
    let (mut rng, mut tally) = (Rng::seeded(102), Tally::default());
    for _ in 0..runs(RUNS) {
        let case = read_case(&mut rng);
        let (mut words, mut expected) = (vec![7; case.room], vec![7; case.room]);
        let result = Library.read(&case.image, &mut words);
        assert_eq!(result, Reader.read(&case.image, &mut expected), "{case:02X?}");
        assert!(words == expected, "{case:02X?}");
        tally.add(&result);
    }
    tally.close("read", "ok,1,2,3,4,8");
}

#[test]
fn writes() {
    let (mut rng, mut tally) = (Rng::seeded(103), Tally::default());
    for _ in 0..runs(RUNS) {
        let case = write_case(&mut rng);
        let (mut out, mut expected) = (vec![7; case.length], vec![7; case.length]);
        let result = Library.write(case.version, &case.words, &case.profile, &mut out);
        let other = Reader.write(case.version, &case.words, &case.profile, &mut expected);
        assert_eq!(result, other, "{case:02X?}");
        assert!(out == expected, "{case:02X?}");
        tally.add(&result);
    }
    tally.close("write", "ok,2,3,4,12,13");
}

/// A used length above 32 bits is above the limit, whatever its low bits are.
#[test]
fn long_used_lengths() {
    let profile = Profile::of(&[(0x2E, role::MEDIAL)]);
    for used in [MAX_ENTRIES + 1, 1 << 32, (1 << 32) + 1, (1 << 32) + MAX_ENTRIES, usize::MAX] {
        let (mut out, mut answer) = ([7; 40], [9; 4]);
        let (points, roles) = (&profile.points, &profile.roles);
        let number = luffinarc::calls::write(1, &[], points, roles, used, &mut out, &mut answer);
        assert_eq!((number, answer, out), (Refusal::Header.number(), [0; 4], [7; 40]));
    }
}

#[test]
fn lookups() {
    let (mut rng, mut tally) = (Rng::seeded(104), Tally::default());
    for _ in 0..runs(RUNS) {
        let case = lookup_case(&mut rng);
        let result = Library.lookup(&case.image, case.number);
        assert_eq!(result, Reader.lookup(&case.image, case.number), "{case:02X?}");
        tally.add(&result);
        let image = match Image::check(&case.image) {
            Ok(image) => image,
            Err(_) => continue,
        };
        match image.lookup(case.number) {
            Ok(found) => assert_eq!(result, Ok((found.class.number(), found.looked_at))),
            Err(refusal) => {
                assert_eq!(refusal, Refusal::NotScalar { number: case.number });
                assert!(result.is_err());
            }
        }
    }
    tally.close("lookup", "ok,1,2,3,4,9");
}

#[test]
fn pairs() {
    let (mut rng, mut tally) = (Rng::seeded(105), Tally::default());
    for _ in 0..runs(RUNS) {
        let case = pair_case(&mut rng);
        let result = Library.pair(&case.older, &case.newer);
        assert_eq!(result, Reader.pair(&case.older, &case.newer), "{case:02X?}");
        tally.add_pair(&result);
    }
    tally.close("pair", "ok,o1,o2,o3,o4,n1,n2,n3,n4,10,11");
}

/// The safe types over an accepted image give what the reader reads.
#[test]
fn accepted_images() {
    let mut rng = Rng::seeded(106);
    for _ in 0..runs(RUNS) / 8 {
        let made = valid_image(&mut rng);
        let bytes = image_of(&made);
        let image = Image::check(&bytes).unwrap();
        assert_eq!(image.version().word(), made.version);
        let profile = image.profile();
        let entries = profile.entries().map(|(point, role)| (point, role.number()));
        assert!(entries.eq(made.profile.entries()));
        let ranges = image.ranges();
        let words = |r: &luffinarc::Range| (r.first, r.last, r.class.number());
        let expected = made.ranges.iter().map(|r| (r.first, r.last, r.class));
        assert!(ranges.iter().map(words).eq(expected));
        let again = luffinarc::write_image(image.version(), &ranges, &profile).unwrap();
        assert!(again == bytes);
    }
}

fn unicode_image(version: &str) -> Vec<u8> {
    data(&format!("images/unicode-{version}.img"))
}

/// Looks up every number to past the last code point, in the four images in use and in one of them with a profile.
#[test]
fn every_scalar_value() {
    let mut images = ["14.0", "15.0", "16.0", "17.0"].map(unicode_image).to_vec();
    let profile = Profile::of(&[
        (0x2B, role::HASHTAG),
        (0x2D, role::MEDIAL),
        (0x2E, role::MEDIAL),
        (0x5F, role::START),
        (0xB7, role::MEDIAL),
        (0x378, role::NONSTART),
        (0x4E00, role::OTHER),
        (0x4E01, role::HASHTAG),
    ]);
    images.push(image_of(&image::Image { profile, ..parse(&images[2]).unwrap() }));
    let mut looked_up = 0;
    for bytes in &images {
        let (image, expected) = (Image::check(bytes).unwrap(), parse(bytes).unwrap());
        let classes = expected.table();
        for number in 0..0x110010 {
            let found = image.lookup(number);
            if !luffinarc_reader::utf8::is_scalar(number) {
                assert_eq!(found, Err(Refusal::NotScalar { number }));
                continue;
            }
            let found = found.unwrap();
            let class = match expected.role(number) {
                role::START | role::NONSTART | role::OTHER => expected.class(number),
                _ => classes[number as usize].into(),
            };
            let looked_at = expected.looked_at(number);
            assert_eq!((found.class.number(), found.looked_at), (class, looked_at), "{number:X}");
            looked_up += 1;
        }
    }
    assert_eq!(looked_up, images.len() * SCALAR_VALUES);
    say(&format!("scalar values looked up: {looked_up}"));
}

/// A buffer that is one word or byte too short is refused, with what is needed, and left as it was.
#[test]
fn one_too_few() {
    let bytes = unicode_image("16.0");
    let made = parse(&bytes).unwrap();
    let words: Vec<u32> = made.ranges.iter().flat_map(|r| [r.first, r.last, r.class]).collect();
    let n = made.ranges.len();
    let room = RANGE_WORDS * n;
    let (mut short, mut right) = (vec![7; room - 1], vec![7; room]);
    let refused = Err(luffinarc_reader::Refusal::Room(n as u64));
    assert_eq!(Library.read(&bytes, &mut short), refused);
    assert!(short == vec![7; room - 1]);
    assert!(Library.read(&bytes, &mut right).is_ok() && right == words);
    let (mut short, mut right) = (vec![7; bytes.len() - 1], vec![7; bytes.len()]);
    let refused = Err(luffinarc_reader::Refusal::Buffer(bytes.len() as u64));
    assert_eq!(Library.write(made.version, &words, &made.profile, &mut short), refused);
    assert!(short == vec![7; bytes.len() - 1]);
    let written = Library.write(made.version, &words, &made.profile, &mut right);
    assert!(written == Ok(bytes.len()) && right == bytes);
}

#[test]
fn pairs_of_versions() {
    let images = ["14.0", "15.0", "16.0", "17.0"].map(unicode_image);
    for (i, older) in images.iter().enumerate() {
        for (j, newer) in images.iter().enumerate() {
            let result = luffinarc::check_pair(older, newer);
            assert_eq!(result.is_ok(), i <= j);
            assert_eq!(Library.pair(older, newer), Reader.pair(older, newer));
        }
    }
}
