//! The made cases reach every answer, and the reader keeps the demands on them.

use luffinarc_reader::cases::*;
use luffinarc_reader::changes::{CHANGED_ENTRY_WORDS, MAX_CHANGED_ENTRIES, MAX_RUNS, RUN_WORDS};
use luffinarc_reader::image::{parse, permitted, write, MAX_ENTRIES, MAX_RANGES, RANGE_WORDS};
use luffinarc_reader::line::LINE_ENDS;
use luffinarc_reader::record::RECORD_WORDS;
use luffinarc_reader::*;

const RUNS: usize = 4000;

#[test]
fn made_images() {
    let mut rng = Rng::new();
    for _ in 0..RUNS / 4 {
        for image in [small_image(&mut rng), valid_image(&mut rng)] {
            assert!(check(&image_of(&image)).is_ok());
            let other = unequal_profile(&mut rng, &image);
            let refused = Err(PairRefusal::Pair(Refusal::Profiles));
            assert_eq!(pair(&image_of(&image), &image_of(&other)), refused);
        }
    }
    let large = check(&image_of(&large_image(&mut rng))).unwrap();
    assert_eq!((large.ranges, large.entries), (MAX_RANGES, MAX_ENTRIES));
}

#[test]
fn images() {
    let (mut rng, mut checks, mut reads) = (Rng::seeded(1), Tally::default(), Tally::default());
    for _ in 0..RUNS {
        let case = check_case(&mut rng);
        checks.add(&check(&case.image));
        let case = read_case(&mut rng);
        let mut words = vec![7; case.room];
        let result = read(&case.image, &mut words);
        reads.add(&result);
        let read = match result {
            Ok(read) => read,
            Err(_) => {
                assert!(words.iter().all(|&word| word == 7));
                continue;
            }
        };
        let (front, rest) = words.split_at(RANGE_WORDS * read.ranges);
        assert!(rest.iter().all(|&word| word == 7));
        let mut again = vec![0xAA; case.image.len()];
        assert_eq!(write(read.version, front, &read.profile, &mut again), Ok(again.len()));
        assert!(again == case.image);
    }
    checks.close("check", "ok,1,2,3,4");
    reads.close("read", "ok,1,2,3,4,8");
}

#[test]
fn writing() {
    let (mut rng, mut tally) = (Rng::seeded(2), Tally::default());
    for _ in 0..RUNS {
        let case = write_case(&mut rng);
        let mut out = vec![0xAA; case.length];
        let result = write(case.version, &case.words, &case.profile, &mut out);
        tally.add(&result);
        let total = result.unwrap_or(0);
        assert!(out[total..].iter().all(|&byte| byte == 0xAA));
        if total > 0 {
            let image = parse(&out[..total]).unwrap();
            assert_eq!(image.profile.entries(), case.profile.entries());
            let words = RANGE_WORDS * image.ranges.len();
            assert_eq!((image.version, words), (case.version, case.words.len()));
        }
    }
    tally.close("write", "ok,2,3,4,12,13");
}

#[test]
fn lookups() {
    let (mut rng, mut tally) = (Rng::seeded(3), Tally::default());
    for _ in 0..RUNS {
        let case = lookup_case(&mut rng);
        let result = lookup(&case.image, case.number);
        tally.add(&result);
        assert!(result.map_or(true, |(class, looked)| class <= class::OTHER && looked <= 13));
    }
    tally.close("lookup", "ok,1,2,3,4,9");
}

#[test]
fn pairs() {
    let (mut rng, mut tally) = (Rng::seeded(4), Tally::default());
    for _ in 0..RUNS {
        let case = pair_case(&mut rng);
        tally.add_pair(&pair(&case.older, &case.newer));
    }
    tally.close("pair", "ok,o1,o2,o3,o4,n1,n2,n3,n4,10,11");
}

/// Runs rise, each with two unequal classes, do not touch their like, and hold no surrogate.
fn rise(runs: &[u32]) {
    let runs: Vec<&[u32]> = runs.chunks(RUN_WORDS).collect();
    for run in &runs {
        assert!(run[0] <= run[1] && run[2] != run[3] && run[1] <= 0x10FFFF);
        assert!(run[1] < 0xD800 || run[0] > 0xDFFF);
    }
    for two in runs.windows(2) {
        let touch = two[0][1] + 1 == two[1][0];
        assert!(two[0][1] < two[1][0] && !(touch && two[0][2..] == two[1][2..]));
    }
}

#[test]
fn changed() {
    let (mut rng, mut tally) = (Rng::seeded(9), Tally::default());
    for _ in 0..RUNS / 2 {
        let case = changes_case(&mut rng);
        let (mut runs, mut entries) = (vec![7; case.run_room], vec![7; case.entry_room]);
        let result = changes(&case.older, &case.newer, &mut runs, &mut entries);
        tally.add_pair(&result);
        let (r, e) = result.unwrap_or((0, 0));
        assert!(r <= MAX_RUNS && e <= MAX_CHANGED_ENTRIES);
        let (of_runs, past_runs) = runs.split_at(RUN_WORDS * r);
        let (of_entries, past_entries) = entries.split_at(CHANGED_ENTRY_WORDS * e);
        assert!(past_runs.iter().chain(past_entries).all(|&word| word == 7));
        rise(of_runs);
        // The changes are permitted just where the pair check says so.
        if result.is_ok() {
            let allowed = of_runs.chunks(RUN_WORDS).all(|run| permitted(run[2], run[3]));
            assert_eq!(pair(&case.older, &case.newer).is_ok(), allowed && of_entries.is_empty());
        }
    }
    tally.close("changes", "ok,o1,o2,o3,o4,n1,n2,n3,n4,8");
}

/// The number of line ends in a part of a text, which begins in no CR LF.
fn line_ends(part: &[u8]) -> u32 {
    let part = std::str::from_utf8(part).unwrap().replace("\r\n", "\n");
    let ends = ['\n', '\x0B', '\x0C', '\r', '\u{85}', '\u{2028}', '\u{2029}'];
    part.matches(&ends[..]).count() as u32
}

/// The list covers the text without gaps, each token stands at its place, and lines go up by the line ends between.
fn division(image: &[u8], text: &[u8], words: &[u32]) {
    let (mut place, mut from, mut line) = (0, 0, 1);
    for (i, token) in words.chunks(RECORD_WORDS).enumerate() {
        let (start, end) = (token[1] as usize, token[2] as usize);
        assert!(start == place && end > start);
        // A CR that LF follows is counted with the LF.
        let cut = start > 0 && text[start - 1..].starts_with(b"\r\n");
        let to = if cut { start - 1 } else { start };
        line += line_ends(&text[from..to]);
        from = to;
        assert_eq!(token[3], line);
        if i < 20 {
            assert_eq!(at(image, text, start), Ok(Some(Token { kind: token[0], start, end })));
        }
        place = end;
    }
    assert_eq!(place, text.len());
}

#[test]
fn lists() {
    let (mut rng, mut counts, mut lists) = (Rng::seeded(5), Tally::default(), Tally::default());
    for _ in 0..RUNS {
        let case = count_case(&mut rng);
        counts.add(&count(&case.image, &case.text));
        let case = list_case(&mut rng);
        let mut words = vec![7; case.room];
        let result = list(&case.image, &case.text, &mut words);
        lists.add(&result);
        let (front, rest) = words.split_at(RECORD_WORDS * result.unwrap_or(0));
        assert!(rest.iter().all(|&word| word == 7));
        if result.is_ok() {
            division(&case.image, &case.text, front);
        }
    }
    counts.close("count", "ok,1,2,3,4,5,6,7,14");
    lists.close("list", "ok,1,2,3,4,5,6,7,8,14");
}

/// Names what the line ends of a list of tokens are in.
fn name_line_ends(tally: &mut Tally, image: &[u8], text: &[u8], words: &[u32]) {
    let (image, (points, _)) = (parse(image).unwrap(), utf8::decode(text));
    let mut tokens = words.chunks(RECORD_WORDS).peekable();
    for (i, at) in points.iter().enumerate().filter(|(_, p)| LINE_ENDS.contains(&p.point)) {
        while tokens.peek().map_or(false, |token| token[2] as usize <= at.start) {
            tokens.next();
        }
        let token = tokens.peek().unwrap();
        let continues = matches!(image.class(at.point), class::START | class::NONSTART);
        let kind = match token[0] {
            kind::IDENTIFIER if !continues => "as a medial",
            kind::IDENTIFIER => "in an identifier",
            kind::SYNTAX => "as syntax",
            kind::LINE_END => "in a token of line ends",
            _ => unreachable!("a line end is no blank and no mark"),
        };
        tally.name(&format!("{:X} {kind}", at.point));
        let before = points[..i].last().map_or(0, |p| p.point);
        if (before, at.point) == (0x0D, 0x0A) {
            let cut = token[1] as usize == at.start;
            tally.name(if cut { "CR LF cut" } else { "CR LF in a token" });
        }
    }
}

#[test]
fn lines() {
    let (mut rng, mut tally) = (Rng::seeded(12), Tally::default());
    for _ in 0..RUNS {
        let case = list_case(&mut rng);
        let mut words = vec![7; RECORD_WORDS * case.text.len()];
        if let Ok(count) = list(&case.image, &case.text, &mut words) {
            name_line_ends(&mut tally, &case.image, &case.text, &words[..RECORD_WORDS * count]);
        }
    }
    let kinds = ["as a medial", "in an identifier", "as syntax", "in a token of line ends"];
    let of = |point: u32| kinds.map(|kind| format!("{point:X} {kind}")).join(",");
    let all = LINE_ENDS.map(of).join(",");
    tally.close("lines", &(all + ",CR LF cut,CR LF in a token"));
}

/// Each tag is a sign and hashtag Continue as far as it goes, none right before; every sign outside of tags has a reason.
fn tagged(image: &[u8], text: &[u8], words: &[u32]) {
    let image = parse(image).unwrap();
    let text = std::str::from_utf8(text).unwrap();
    let continues = |c: char| hashtag::is_hashtag_continue(&image, c.into());
    let is_sign = |c: char| hashtag::SIGNS.contains(&c.into());
    let (mut starts, mut from, mut line) = (Vec::new(), 0, 1);
    for tag in words.chunks(RECORD_WORDS) {
        let (start, end) = (tag[1] as usize, tag[2] as usize);
        let mut inside = text[start..end].chars();
        assert!(tag[0] == kind::HASHTAG && inside.next().map_or(false, is_sign));
        assert!(inside.clone().count() > 0 && inside.all(continues));
        assert!(!text[end..].chars().next().map_or(false, continues));
        // No sign stands between CR and LF.
        line += line_ends(&text.as_bytes()[from..start]);
        from = start;
        assert_eq!(tag[3], line);
        starts.push(start);
    }
    assert!(starts.windows(2).all(|two| two[0] < two[1]));
    for (place, sign) in text.char_indices().filter(|&(_, c)| is_sign(c)) {
        let before = text[..place].chars().next_back().map_or(false, continues);
        let after = text[place + sign.len_utf8()..].chars().next().map_or(false, continues);
        assert_eq!(starts.binary_search(&place).is_ok(), after && !before);
    }
}

#[test]
fn tags() {
    let (mut rng, mut tally, mut found) = (Rng::seeded(11), Tally::default(), 0);
    for _ in 0..RUNS {
        let case = hashtag_case(&mut rng);
        let mut words = vec![7; case.room];
        let result = hashtags(&case.image, &case.text, &mut words);
        tally.add(&result);
        let (front, rest) = words.split_at(RECORD_WORDS * result.unwrap_or(0));
        assert!(rest.iter().all(|&word| word == 7));
        if result.is_ok() {
            tagged(&case.image, &case.text, front);
            found += usize::from(!front.is_empty());
        }
    }
    tally.close("hashtags", "ok,1,2,3,4,5,6,8");
    assert!(found > RUNS / 4, "{found}");
}

#[test]
fn places() {
    let (mut rng, mut ats, mut parts) = (Rng::seeded(6), Tally::default(), Tally::default());
    for _ in 0..RUNS {
        let case = at_case(&mut rng);
        let result = at(&case.image, &case.text, case.place);
        match result {
            Ok(None) => ats.name("done"),
            _ => ats.add(&result),
        }
        let case = part_case(&mut rng);
        parts.add(&part(&case.text, case.start, case.end));
    }
    ats.close("at", "ok,done,1,2,3,4,5,6,7,13");
    parts.close("part", "ok,13");
}

#[test]
fn listers() {
    let (mut rng, mut tally) = (Rng::seeded(7), Tally::default());
    for _ in 0..RUNS {
        let output = lister(&lister_case(&mut rng).input);
        let mut words = output.split_ascii_whitespace();
        match words.next().unwrap() {
            "refused" => tally.name(words.next().unwrap()),
            first => tally.name(first),
        }
    }
    tally.close("lister", "tokens,1,2,3,4,5,6,7,14");
}

#[test]
fn change_listers() {
    let (mut rng, mut tally) = (Rng::seeded(10), Tally::default());
    for _ in 0..RUNS / 2 {
        let output = change_lister(&change_lister_case(&mut rng).input);
        tally.name(output.lines().next().unwrap().split_once(char::is_numeric).unwrap().0.trim());
    }
    tally.close("change lister", "changes,refused newer,refused older");
}

/// Demand 3's exception: the character at the place, or the next after a
/// medial, has another class.
fn changed_at(case: &StableCase, place: u64) -> bool {
    let (older, newer) = (parse(&case.older).unwrap(), parse(&case.newer).unwrap());
    let (points, _) = utf8::decode(&case.text[place as usize..]);
    let changed =
        |i: usize| points.get(i).map_or(false, |p| older.class(p.point) != newer.class(p.point));
    changed(0) || (older.role(points[0].point) == role::MEDIAL && changed(1))
}

#[test]
fn stability() {
    let (mut rng, mut tally) = (Rng::seeded(8), Tally::default());
    for _ in 0..RUNS {
        let case = stable_case(&mut rng);
        assert_eq!(pair(&case.older, &case.newer), Ok(()));
        let room = RECORD_WORDS * rng.below(30);
        let (mut old_words, mut new_words) = (vec![7; room], vec![7; room]);
        let older = list(&case.older, &case.text, &mut old_words);
        let newer = list(&case.newer, &case.text, &mut new_words);
        let counts = (count(&case.older, &case.text), count(&case.newer, &case.text));
        match older {
            Err(Refusal::Characters(place)) if changed_at(&case, place) => {
                tally.name(if newer == older { "7 kept" } else { "7 moved" });
            }
            _ => {
                tally.add(&older);
                assert_eq!((newer, counts.1), (older, counts.0));
                assert!(old_words == new_words);
            }
        }
    }
    tally.close("stability", "ok,5,6,7,7 kept,7 moved,8,14");
}
