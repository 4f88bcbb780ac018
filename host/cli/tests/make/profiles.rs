//! Profiles: their lines, what is refused, and the ready ones.

use crate::room::{make, Room, DATA};
use luffinarc::{Image, Kind, Role, MAX_ENTRIES};
use luffinarc_maker::read_profile;
use luffinarc_reader::role;
use std::fs;
use std::path::Path;

const FORM: &str = "not of the form U+HEX ROLE or U+HEX..U+HEX ROLE";

/// Profiles, the number of the line that is bad, and why.
const BAD: [(&str, usize, &str); 31] = [
    ("U+2E", 1, FORM),
    ("# one\n\nU+2E 3 4", 3, FORM),
    ("002G 3", 1, FORM),
    ("U+ 3", 1, FORM),
    ("+002E 3", 1, FORM),
    ("-002E 3", 1, FORM),
    ("002E..002F..0030 3", 1, FORM),
    ("002E.. 3", 1, FORM),
    ("002E .. 0030 3", 1, FORM),
    ("002E - 3", 1, FORM),
    ("a Start", 1, FORM),
    ("002E 3\n05F 1", 2, FORM),
    ("2E..U+30 3", 1, FORM),
    ("U+2E..30 3", 1, FORM),
    ("002E 0", 1, "role 0 is not 1 to 5"),
    ("002D 3\n002E 6", 2, "role 6 is not 1 to 5"),
    ("002E 4294967297", 1, "role 4294967297 is not 1 to 5"),
    ("002E -3", 1, "role -3 is not Start, Nonstart, Medial, Other or Hashtag"),
    ("002E Mid", 1, "role Mid is not Start, Nonstart, Medial, Other or Hashtag"),
    ("U+2E 3\n\nU+2D 3", 3, "U+002D is not above U+002E of line 1"),
    ("002E 3\n002E 3", 2, "U+002E is not above U+002E of line 1"),
    ("0030..0039 1\n0035 3", 2, "U+0035 is not above U+0039 of line 1"),
    ("0039..0030 1", 1, "U+0039..U+0030 ends before it begins"),
    ("D800 3", 1, "U+D800 is no scalar value"),
    ("u+dfff 3", 1, "U+DFFF is no scalar value"),
    ("D7FF..E000 3", 1, "U+D800 is no scalar value"),
    ("110000 1", 1, "U+110000 is no scalar value"),
    ("100000000 1", 1, "U+100000000 is no scalar value"),
    ("0000..10FFFF 1", 1, "U+D800 is no scalar value"),
    ("E000..10FFFF 1", 1, "U+E200 is entry 513, at most 512"),
    ("U+1 1\n\n0100..02FF 1", 3, "U+02FF is entry 513, at most 512"),
];

/// A bad line is told with its number and why.
#[test]
fn bad_lines() {
    let room = Room::new("bad-profiles");
    let file = room.path.join("bad.profile");
    room.fails_with(&room.folder, Some(&file), "bad.profile: No such file or directory");
    room.fails_with(&room.folder, Some(&room.path), "bad-profiles: Is a directory");
    for (text, line, why) in BAD {
        fs::write(&file, text).unwrap();
        let message = format!("bad.profile: line {line}: {why}\n");
        room.fails_with(&room.folder, Some(&file), &message);
    }
    fs::write(&file, b"002E 3\n\xC3\n").unwrap();
    room.fails_with(&room.folder, Some(&file), "bad.profile: line 2: not UTF-8\n");
}

/// Characters that can't be seen reach no terminal, from a line or from a name.
#[test]
fn hidden_characters() {
    let room = Room::new("hidden");
    let file = room.path.join("\u{202E}\x1B[2J.profile");
    fs::write(&file, "U+0041 \u{202E}\x1B[2Jx").unwrap();
    let role = "role \u{FFFD}\u{FFFD}[2Jx is not Start, Nonstart, Medial, Other or Hashtag";
    let message = format!("/\u{FFFD}\u{FFFD}[2J.profile: line 1: {role}\n");
    room.fails_with(&room.folder, Some(&file), &message);
}

/// The profile of the image that is made with a file.
fn entries(room: &Room, file: &Path) -> Vec<(u32, u32)> {
    let out = room.path.join("image");
    let output = make("16.0.0", &room.folder, Some(file), &out);
    assert!(output.status.success(), "{}", String::from_utf8_lossy(&output.stderr));
    let image = luffinarc_reader::image::parse(&fs::read(&out).unwrap()).unwrap();
    assert_eq!(image.version, 0x100000);
    image.profile.entries().to_vec()
}

#[test]
fn good_lines() {
    let room = Room::new("good-profiles");
    let file = room.path.join("profile");
    let good = [
        "002b 5 # in hashtags\n# medials\n002D 3\n  002e\t3 # full stop\n\n00005F 1",
        "\u{FEFF}# with a signature\r\nU+2B hashtag\r\nu+2d..002E MEDIAL\r\n005F..U+005F Start\r\n",
        "U+002B Hashtag\nU+002D Medial\nU+002E Medial\nU+0000005F start#\n",
    ];
    for text in good {
        fs::write(&file, text).unwrap();
        let start = (0x5F, role::START);
        let medials = [(0x2D, role::MEDIAL), (0x2E, role::MEDIAL)];
        assert_eq!(
            entries(&room, &file),
            [&[(0x2B, role::HASHTAG)], &medials[..], &[start]].concat()
        );
    }
    fs::write(&file, "D7FF Other\nE000 nonstart\n10FFFF 4\n").unwrap();
    let expected = [(0xD7FF, role::OTHER), (0xE000, role::NONSTART), (0x10FFFF, role::OTHER)];
    assert_eq!(entries(&room, &file), expected);
    fs::write(&file, "# none\n").unwrap();
    assert_eq!(entries(&room, &file), []);
}

/// As many entries as an image may have: line by line, and in one range.
#[test]
fn most_entries() {
    let room = Room::new("most-entries");
    let file = room.path.join("profile");
    let lines: String = (0..MAX_ENTRIES).map(|i| format!("{:04X} 3\n", 0x100 + i)).collect();
    for text in [&lines, "U+0100..U+02FF Medial"] {
        fs::write(&file, text).unwrap();
        let expected: Vec<_> = (0x100..0x300).map(|point| (point, role::MEDIAL)).collect();
        assert_eq!(entries(&room, &file), expected);
    }
}

/// The ready profiles: what the maker reads is what the image has.
#[test]
fn ready_profiles() {
    let room = Room::new("ready-profiles");
    for (name, count) in [("scripts", 13), ("thai-tibetan", 74)] {
        let file = format!("{DATA}/profiles/{name}.profile");
        let read = read_profile(file.as_ref()).unwrap();
        assert_eq!(read.len(), count);
        let numbers = read.into_iter().map(|(point, role)| (point, role.number()));
        assert!(numbers.eq(entries(&room, file.as_ref())));
    }
}

/// What the comments of the profile for scripts say.
#[test]
fn scripts() {
    let read = read_profile(format!("{DATA}/profiles/scripts.profile").as_ref()).unwrap();
    let digits = (0x30..=0x39).map(|point| (point, Role::Start));
    let medials = [(0x2D, Role::Medial), (0x2E, Role::Medial)].into_iter();
    assert!(medials.chain(digits).chain([(0x5F, Role::Start)]).eq(read));
    let image = |name| fs::read(format!("{DATA}/images/{name}.img")).unwrap();
    let (plain, with) = (image("unicode-16.0"), image("scripts-16.0"));
    let (plain, with) = (Image::check(&plain).unwrap(), Image::check(&with).unwrap());
    let names = ["log-file", "net.eth0", "x-1", "a.b", "1.5", "2024-01-31", "42", "3rd", "0x1F"];
    for name in names.into_iter().chain(["_start", "__init__"]) {
        let tokens: Vec<_> = with.tokens(name).unwrap().collect();
        assert_eq!((tokens.len(), tokens[0].kind), (1, Kind::Identifier), "{name}");
        assert_ne!(plain.count(name), Ok(1), "{name}");
    }
    for (text, count) in [("x - 1", 5), ("-x", 2), ("x.", 2), ("1..5", 4)] {
        assert_eq!(with.count(text), Ok(count), "{text}");
    }
}
