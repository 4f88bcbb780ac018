//! Sources that are cut, or that lost lines: none of them makes an image.

use crate::room::{Room, FILES};
use luffinarc::Version;
use luffinarc_maker::Options;
use std::fs;

/// Makes an image in this process, or none: an error has one line and leaves no file.
fn make(room: &Room) -> Result<Vec<u8>, String> {
    let out = room.path.join("made");
    let _ = fs::remove_file(&out);
    let options = Options {
        version: Version::new(16, 0, 0),
        folder: room.folder.clone(),
        profile: None,
        out: out.clone(),
    };
    let made = luffinarc_maker::make(&options);
    assert_eq!(fs::read(&out).ok(), made.clone().ok());
    if let Err(error) = &made {
        assert_eq!(error.lines().count(), 1, "{error}");
    }
    made
}

/// No image is made: the error.
fn error(room: &Room) -> String {
    make(room).unwrap_err()
}

/// Where each line ends.
fn ends(text: &str) -> Vec<usize> {
    text.match_indices('\n').map(|(end, _)| end + 1).collect()
}

#[test]
fn cut_after_a_line() {
    for (name, step) in FILES.into_iter().zip([29, 61, 1]) {
        let room = Room::new(&format!("lines-{name}"));
        let text = room.text(name);
        let ends = ends(&text);
        room.put(name, "");
        room.fails(&format!("{name}: is empty"));
        let last_three = ends[..ends.len() - 1].iter().rev().take(3);
        for &end in ends[..ends.len() - 1].iter().step_by(step).chain(last_three) {
            room.put(name, &text[..end]);
            room.fails(&format!("{name}: ends too early: its last line is not `# EOF`"));
        }
        room.put(name, &text);
        room.makes_reference();
    }
}

#[test]
fn cut_at_a_byte() {
    for (name, step) in FILES.into_iter().zip([71, 151, 1]) {
        let room = Room::new(&format!("bytes-{name}"));
        let text = room.text(name);
        let last = text.len() - 100..text.len();
        for end in (0..text.len()).step_by(step).chain(last) {
            room.put(name, &text[..end]);
            let error = error(&room);
            let found = ["is empty", "tells no version", "ends too early"];
            assert!(found.iter().any(|&message| error.contains(message)), "{end}: {error}");
        }
    }
}

/// Every line counts: without it, with it twice, or with it after the next, nothing is made.
#[test]
fn changed_lines() {
    for (name, step) in FILES.into_iter().zip([43, 89, 1]) {
        let room = Room::new(&format!("changed-{name}"));
        let text = room.text(name);
        let lines: Vec<&str> = text.lines().collect();
        let put = |lines: Vec<&str>| room.put(name, lines.join("\n") + "\n");
        for i in (0..lines.len()).step_by(step).chain(lines.len() - 2..lines.len()) {
            put([&lines[..i], &lines[i + 1..]].concat());
            error(&room);
            // The first line may stand twice: the second time it is a comment.
            if i > 0 {
                put([&lines[..=i], &lines[i..]].concat());
                error(&room);
            }
            if i + 1 < lines.len() {
                put([&lines[..i], &[lines[i + 1], lines[i]], &lines[i + 2..]].concat());
                error(&room);
            }
        }
    }
}

/// A block of lines that is lost is found, wherever it lies.
#[test]
fn lost_blocks() {
    let room = Room::new("blocks");
    let name = "PropList.txt";
    let text = room.text(name);
    let lines: Vec<&str> = text.lines().collect();
    for first in 0..lines.len() {
        for end in first + 1..=lines.len() {
            room.put(name, [&lines[..first], &lines[end..]].concat().join("\n") + "\n");
            error(&room);
        }
    }
}

#[test]
fn totals() {
    let room = Room::new("totals");
    let text = room.text("PropList.txt");
    let cases = [
        (": 2760", ": 2761", "the total is told as 2761, but 2760 code points are counted"),
        (": 2760", ": 276", "Pattern_Syntax: the total is told as 276, but 2760"),
        (": 11", ": 0", "Pattern_White_Space: the total is told as 0, but 11"),
        (": 11", ": 18446744073709551616", "no number after `# Total code points:`"),
        (": 11", ": eleven", "no number after"),
        (": 11", ":", "no number after"),
        ("# Total code points: 2760", "#", "after the lines of Pattern_Syntax"),
        ("# Total code points: 11", "# Total: 11", "after the lines of Pattern_White_Space"),
        ("0021..", "0022..", "Pattern_Syntax: the total is told as 2760, but 2759"),
        ("0021..", "# Total code points: 3\n0021..", "the total is told as 3, but 0"),
    ];
    for (old, new, message) in cases {
        room.put("PropList.txt", text.replacen(old, new, 1));
        room.fails(message);
    }
    room.put("PropList.txt", text.replacen("0021..", "# Total code points: 0\n0021..", 1));
    room.makes_reference();
}

/// Bytes that are changed at any place give an image or an error.
#[test]
fn damaged_bytes() {
    let mut state = 1_u64;
    let mut next = |below: usize| {
        state =
            state.wrapping_mul(6_364_136_223_846_793_005).wrapping_add(1_442_695_040_888_963_407);
        (state >> 33) as usize % below
    };
    let bytes = b"0123456789ABCDEF.;# \n\r\xFF\0";
    let mut refused = 0;
    for name in FILES {
        let room = Room::new(&format!("damaged-{name}"));
        let text = room.text(name);
        for _ in 0..300 {
            let mut damaged = text.clone().into_bytes();
            for _ in 0..=next(3) {
                let place = next(damaged.len());
                damaged[place] = bytes[next(bytes.len())];
            }
            room.put(name, &damaged);
            refused += usize::from(make(&room).is_err());
        }
    }
    assert!(refused > 700, "{refused}");
}
