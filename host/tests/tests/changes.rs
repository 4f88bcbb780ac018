//! The list of changes against the independent reader: on made cases, on the images in use and at the edges.

use luffinarc::{
    list_changes, ChangedEntry, PairRefusal, Refusal, Run, CHANGED_ENTRY_WORDS,
    MAX_CHANGED_ENTRIES, MAX_IMAGE, MAX_RUNS, RUN_WORDS,
};
use luffinarc_reader::cases::*;
use luffinarc_reader::changes::changes_of;
use luffinarc_reader::image::{Image, Range};
use luffinarc_reader::{class, role, Calls, Profile, Reader};
use luffinarc_tests::{data, runs, say, Library};

const RUNS: usize = 2000;

/// The room, in words, of the two lists.
type Room = (usize, usize);

/// The call and the reader's, with so much room, give the same and leave the same words, which are given.
fn compare(older: &[u8], newer: &[u8], room: Room) -> (Vec<u32>, Vec<u32>) {
    let (mut runs, mut entries) = (vec![7; room.0], vec![7; room.1]);
    let result = Library.changes(older, newer, &mut runs, &mut entries);
    let (mut all_runs, mut all_entries) = (vec![7; room.0], vec![7; room.1]);
    let expected = Reader.changes(older, newer, &mut all_runs, &mut all_entries);
    assert_eq!(result, expected, "{older:02X?} {newer:02X?} {room:?}");
    assert!((&runs, &entries) == (&all_runs, &all_entries), "{older:02X?} {newer:02X?} {room:?}");
    (runs, entries)
}

/// The words of a run and of an entry.
fn run_words(run: &Run) -> [u32; RUN_WORDS] {
    [run.first, run.last, run.older.number(), run.newer.number()]
}

fn entry_words(entry: &ChangedEntry) -> [u32; CHANGED_ENTRY_WORDS] {
    let [older, newer] = [entry.older, entry.newer].map(|role| role.map_or(0, |r| r.number()));
    [entry.code_point, older, newer]
}

/// The safe call lists what the reader does, and refuses what it refuses; gives the numbers of runs and of entries.
fn compare_safe(older: &[u8], newer: &[u8]) -> Option<(usize, usize)> {
    match (list_changes(older, newer), changes_of(older, newer)) {
        (Ok(changes), Ok((runs, entries))) => {
            assert!(changes.runs.iter().map(run_words).eq(runs.iter().copied()));
            assert!(changes.entries.iter().map(entry_words).eq(entries.iter().copied()));
            Some((runs.len(), entries.len()))
        }
        (Err(refused), Err(expected)) => {
            let (which, of_reader) = match expected {
                luffinarc_reader::PairRefusal::Older(r) => (PairRefusal::Older as fn(_) -> _, r),
                luffinarc_reader::PairRefusal::Newer(r) => (PairRefusal::Newer as fn(_) -> _, r),
                luffinarc_reader::PairRefusal::Pair(r) => (PairRefusal::Pair as fn(_) -> _, r),
            };
            assert_eq!(refused, which(refused.refusal()));
            assert_eq!(refused.refusal().number(), of_reader.number());
            assert!(refused.refusal().carried().eq(of_reader.carried()));
            None
        }
        (given, expected) => panic!("{given:?}, not {expected:?}"),
    }
}

/// Compares with every room that matters: each list exact, one word too short, longer, none.
fn compare_rooms(older: &[u8], newer: &[u8]) -> (usize, usize) {
    let (r, e) = compare_safe(older, newer).unwrap();
    let exact = (RUN_WORDS * r, CHANGED_ENTRY_WORDS * e);
    let about = |room: usize| [room, room.saturating_sub(1), room + 1, room + 9, 0];
    for run_room in about(exact.0) {
        compare(older, newer, (run_room, exact.1));
    }
    for entry_room in about(exact.1) {
        compare(older, newer, (exact.0, entry_room));
        compare(older, newer, (exact.0.saturating_sub(1), entry_room));
    }
    (r, e)
}

#[test]
fn made_changes() {
    let (mut rng, mut tally) = (Rng::seeded(107), Tally::default());
    for i in 0..runs(RUNS) {
        let case = changes_case(&mut rng);
        compare(&case.older, &case.newer, (case.run_room, case.entry_room));
        if i % 4 == 0 {
            compare_safe(&case.older, &case.newer);
        }
        let (mut runs, mut entries) = (vec![7; case.run_room], vec![7; case.entry_room]);
        tally.add_pair(&Library.changes(&case.older, &case.newer, &mut runs, &mut entries));
    }
    tally.close("changes", "ok,o1,o2,o3,o4,n1,n2,n3,n4,8");
}

/// Small images, which differ in most places, with every room that matters.
#[test]
fn small_images() {
    let mut rng = Rng::seeded(108);
    let (mut with_runs, mut with_entries) = (0, 0);
    for _ in 0..runs(RUNS) / 20 {
        let (older, newer) = (small_image(&mut rng), small_image(&mut rng));
        let (r, e) = compare_rooms(&image_of(&older), &image_of(&newer));
        with_runs += usize::from(r > 0);
        with_entries += usize::from(e > 0);
    }
    say(&format!("small images: {with_runs} with runs, {with_entries} with entries"));
    assert!(with_runs > 0 && with_entries > 0);
}

/// The image of ranges and entries.
fn made(ranges: &[(u32, u32, u32)], entries: &[(u32, u32)]) -> Vec<u8> {
    let range = |&(first, last, class): &(u32, u32, u32)| Range { first, last, class };
    let ranges = ranges.iter().map(range).collect();
    image_of(&Image { version: 1, ranges, profile: Profile::of(entries) })
}

/// The image in which two code points have these classes, 0 for in no range.
fn of_two(points: [u32; 2], classes: [u32; 2]) -> Vec<u8> {
    if points[0] + 1 == points[1] && classes[0] == classes[1] && classes[0] != class::UNASSIGNED {
        return made(&[(points[0], points[1], classes[0])], &[]);
    }
    let both = points.into_iter().zip(classes).filter(|&(_, class)| class != class::UNASSIGNED);
    made(&both.map(|(point, class)| (point, point, class)).collect::<Vec<_>>(), &[])
}

/// Every two classes of two code points, in the older and the newer image: neighbours, D7FF and E000 hex, the ends.
#[test]
fn two_code_points() {
    let classes: Vec<[u32; 2]> = (0..36).map(|i| [i / 6, i % 6]).collect();
    for points in [[0x41, 0x42], [0xD7FF, 0xE000], [0, 0x10FFFF]] {
        for &older in &classes {
            for &newer in &classes {
                let (older, newer) = (of_two(points, older), of_two(points, newer));
                compare(&older, &newer, (2 * RUN_WORDS, 0));
            }
        }
    }
}

/// Every two roles of two code points.
#[test]
fn two_entries() {
    let entries = |older: [u32; 2]| {
        let both = [0x2D, 0x2E].into_iter().zip(older).filter(|entry| entry.1 != 0);
        made(&[], &both.collect::<Vec<_>>())
    };
    let roles: Vec<[u32; 2]> = (0..36).map(|i| [i / 6, i % 6]).collect();
    for &older in &roles {
        for &newer in &roles {
            for room in [2 * CHANGED_ENTRY_WORDS, 2 * CHANGED_ENTRY_WORDS - 1] {
                compare(&entries(older), &entries(newer), (0, room));
            }
        }
    }
}

/// A run that reaches D7FF hex and one from E000 hex on are two, whatever stands beside them.
#[test]
fn surrogates() {
    let none = made(&[], &[]);
    let whole = made(&[(0, 0xD7FF, class::START), (0xE000, 0x10FFFF, class::START)], &[]);
    let part = made(&[(0x41, 0xD7FF, class::OTHER), (0xE000, 0xE000, class::OTHER)], &[]);
    let before = made(&[(0xD000, 0xD7FF, class::START)], &[]);
    let after = made(&[(0xE000, 0xE00F, class::START)], &[]);
    let images = [none, whole, part, before, after];
    let counts: Vec<usize> = images.iter().map(|i| compare_rooms(&images[0], i).0).collect();
    assert_eq!(counts, [0, 2, 2, 1, 1]);
    for older in &images {
        for newer in &images {
            compare_rooms(older, newer);
        }
    }
}

/// Two images of 4,096 ranges and 512 entries, between which are the most runs and the most entries.
#[test]
fn most_runs_and_entries() {
    let (older, newer) = most_changes();
    let (older, newer) = (image_of(&older), image_of(&newer));
    for (older, newer) in [(&older, &newer), (&newer, &older)] {
        assert_eq!(compare_rooms(older, newer), (MAX_RUNS, MAX_CHANGED_ENTRIES));
    }
}

/// All ordered pairs of the images in use, each with itself too, and of one with a profile.
#[test]
fn changes_of_versions() {
    let named = |version: &str| data(&format!("images/unicode-{version}.img"));
    let mut images = ["14.0", "15.0", "16.0", "17.0"].map(named).to_vec();
    let plain = luffinarc_reader::image::parse(&images[2]).unwrap();
    let profile = Profile::of(&[(0x2D, role::MEDIAL), (0x5F, role::START)]);
    images.push(image_of(&Image { profile, ..plain }));
    let mut counts = Vec::new();
    for (i, older) in images.iter().enumerate() {
        for (j, newer) in images.iter().enumerate() {
            let (runs, entries) = compare_rooms(older, newer);
            assert_eq!(runs == 0, i == j || i.min(j) == 2 && i.max(j) == 4);
            assert_eq!(entries, if (i == 4) == (j == 4) { 0 } else { 2 });
            counts.push(runs);
        }
    }
    say(&format!("runs between versions: {counts:?}"));
}

/// A room that is too small in both lists is told of the runs, whatever the entries need.
#[test]
fn runs_come_first() {
    let older = made(&[(0x41, 0x5A, class::START)], &[(0x2D, role::MEDIAL), (0x2E, role::MEDIAL)]);
    let newer = made(&[], &[]);
    let refused = |needed| Err(luffinarc_reader::PairRefusal::Pair(needed));
    let room = luffinarc_reader::Refusal::Room;
    for (words, needed) in [((3, 5), 1), ((0, 0), 1), ((3, 6), 1), ((4, 5), 2), ((9, 0), 2)] {
        let (mut runs, mut entries) = (vec![7; words.0], vec![7; words.1]);
        let result = Library.changes(&older, &newer, &mut runs, &mut entries);
        assert_eq!(result, refused(room(needed)), "{words:?}");
        assert!(runs.iter().chain(&entries).all(|&word| word == 7), "{words:?}");
    }
    assert_eq!(compare_rooms(&older, &newer), (1, 2));
}

/// The safe call refuses images as long as they come; it lends no more room for them.
#[test]
fn images_of_any_length() {
    let m = data("images/m.img");
    for length in [0, 1, 31, 32, MAX_IMAGE, MAX_IMAGE + 1, 1 << 20] {
        let long = vec![1; length];
        let older = list_changes(&long, &m);
        assert_eq!(older, Err(PairRefusal::Older(Refusal::Length)));
        let newer = list_changes(&m, &long);
        assert_eq!(newer, Err(PairRefusal::Newer(Refusal::Length)));
    }
}
