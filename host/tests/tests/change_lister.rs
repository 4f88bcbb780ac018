//! The change lister against the independent reader, run as a program.

use luffinarc::MAX_IMAGE;
use luffinarc_reader::cases::*;
use luffinarc_reader::Calls;
use luffinarc_tests::{data, runs, Library};

const RUNS: usize = 500;

/// The program's output, which is the reader's too.
fn output(input: &[u8]) -> String {
    let output = Library.change_lister(input).unwrap();
    assert_eq!(output, luffinarc_reader::change_lister(input), "{input:02X?}");
    output
}

#[test]
fn change_listers() {
    let (mut rng, mut tally) = (Rng::seeded(206), Tally::default());
    for _ in 0..runs(RUNS) {
        let output = output(&change_lister_case(&mut rng).input);
        tally.name(output.lines().next().unwrap().split_once(char::is_numeric).unwrap().0.trim());
    }
    tally.close("change lister", "changes,refused newer,refused older");
}

/// The small images, whole and cut anywhere.
#[test]
fn small_images() {
    let both = [data("images/m.img"), data("images/m2.img")].concat();
    assert_eq!(output(&both), "changes 1 0\nclass 233 233 0 1\n");
    for length in 0..both.len() {
        let which = if length < 100 { "older" } else { "newer" };
        assert_eq!(output(&both[..length]), format!("refused {which} 1\n"));
    }
    assert_eq!(output(&[&both[..], b"a"].concat()), "refused newer 1\n");
}

/// Total lengths of the older image about their limits.
#[test]
fn total_lengths() {
    let both = [data("images/m.img"), data("images/m2.img")].concat();
    const MOST: u32 = MAX_IMAGE as u32;
    for total in [0, 31, 32, 33, 99, 100, 101, 211, 212, 213, MOST, MOST + 1, u32::MAX] {
        let mut input = both.clone();
        input[8..12].copy_from_slice(&total.to_le_bytes());
        output(&input);
        input.resize(MAX_IMAGE + 112, 0);
        output(&input);
    }
}

/// The images in use, and the two with the most changes.
#[test]
fn large_images() {
    let versions = ["14.0", "15.0", "16.0", "17.0"];
    let images = versions.map(|version| data(&format!("images/unicode-{version}.img")));
    for older in &images {
        for newer in &images {
            assert!(output(&[&older[..], newer].concat()).starts_with("changes "));
        }
    }
    let (older, newer) = most_changes();
    let mut input = [image_of(&older), image_of(&newer)].concat();
    let all = output(&input);
    assert!(all.starts_with("changes 16383 1024\n"));
    let [runs, entries] = ["\nclass ", "\nrole "].map(|start| all.matches(start).count());
    assert_eq!((runs, entries, all.lines().count()), (16_383, 1024, 1 + 16_383 + 1024));
    for length in [input.len() + 1, 200_000, 1 << 20] {
        input.resize(length, 0);
        assert_eq!(output(&input), "refused newer 1\n");
    }
}
