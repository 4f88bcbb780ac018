//! The outside vectors, run against any reader.

use crate::utf8::first;
use crate::{Calls, Profile, Refusal};
use std::collections::BTreeMap;
use std::io::Write;

const FOLDER: &str = concat!(env!("CARGO_MANIFEST_DIR"), "/../data/vectors/");
const FILES: [&str; 5] = ["calls.txt", "changes.txt", "form.txt", "hashtags.txt", "lists.txt"];

/// The images under which the form of a text is asked for.
const FORM_IMAGES: [&str; 2] = ["../images/m.img", "../images/unicode-16.0.img"];

fn bytes(hex: &str) -> Vec<u8> {
    if hex == "-" {
        return vec![];
    }
    assert!(hex.len() % 2 == 0);
    (0..hex.len()).step_by(2).map(|i| u8::from_str_radix(&hex[i..i + 2], 16).unwrap()).collect()
}

fn hex(bytes: &[u8]) -> String {
    if bytes.is_empty() {
        return "-".to_string();
    }
    bytes.iter().map(|b| format!("{b:02x}")).collect()
}

/// Comma separated items, `-` for none.
fn items(list: &str) -> Vec<&str> {
    if list == "-" {
        vec![]
    } else {
        list.split(',').collect()
    }
}

fn words(list: &str) -> Vec<u32> {
    items(list).iter().map(|w| w.parse().unwrap()).collect()
}

fn joined<T: ToString>(list: &[T]) -> String {
    if list.is_empty() {
        return "-".to_string();
    }
    list.iter().map(T::to_string).collect::<Vec<_>>().join(",")
}

fn pairs(list: &str) -> Vec<(u32, u32)> {
    let entry = |e: &&str| {
        let (point, role) = e.split_once('/').unwrap();
        (point.parse().unwrap(), role.parse().unwrap())
    };
    items(list).iter().map(entry).collect()
}

fn answer_of<T>(result: Result<T, Refusal>, show: impl Fn(T) -> String) -> String {
    match result {
        Ok(value) => show(value),
        Err(refusal) => refusal.to_string(),
    }
}

fn run_read(calls: &impl Calls, image: &str, room: &str) -> String {
    let mut lent = vec![7; room.parse().unwrap()];
    let before = lent.clone();
    match calls.read(&bytes(image), &mut lent) {
        Err(refusal) => {
            assert_eq!(lent, before, "a refused call changes nothing");
            refusal.to_string()
        }
        Ok(read) => {
            let entries: Vec<String> = read
                .profile
                .entries()
                .iter()
                .map(|(point, role)| format!("{point}/{role}"))
                .collect();
            format!("ok {} {} {} {}", read.version, read.ranges, joined(&entries), joined(&lent))
        }
    }
}

fn run_write(calls: &impl Calls, args: &[&str]) -> String {
    let mut profile = Profile::of(&pairs(args[2]));
    profile.used = args[3].parse().unwrap();
    let mut lent = vec![0xAA; args[4].parse().unwrap()];
    let before = lent.clone();
    match calls.write(args[0].parse().unwrap(), &words(args[1]), &profile, &mut lent) {
        Ok(total) => format!("ok {total} {}", hex(&lent)),
        Err(refusal) => {
            assert_eq!(lent, before, "a refused call changes nothing");
            refusal.to_string()
        }
    }
}

/// Of image, text and room, by the call that writes the list.
fn run_list(
    args: &[&str],
    call: impl Fn(&[u8], &[u8], &mut [u32]) -> Result<usize, Refusal>,
) -> String {
    let mut lent = vec![7; args[2].parse().unwrap()];
    let before = lent.clone();
    match call(&bytes(args[0]), &bytes(args[1]), &mut lent) {
        Ok(count) => format!("ok {count} {}", joined(&lent)),
        Err(refusal) => {
            assert_eq!(lent, before, "a refused call changes nothing");
            refusal.to_string()
        }
    }
}

fn run_at(calls: &impl Calls, image: &str, text: &str, place: &str) -> String {
    let result = calls.at(&bytes(image), &bytes(text), place.parse().unwrap());
    answer_of(result, |token| match token {
        None => "done".to_string(),
        Some(token) => format!("ok {} {} {}", token.kind, token.start, token.end),
    })
}

fn run_pair(calls: &impl Calls, older: &str, newer: &str) -> String {
    match calls.pair(&bytes(older), &bytes(newer)) {
        Ok(()) => "yes".to_string(),
        Err(refusal) => refusal.to_string(),
    }
}

fn run_changes(calls: &impl Calls, args: &[&str]) -> String {
    let [mut runs, mut entries] = [args[2], args[3]].map(|room| vec![7; room.parse().unwrap()]);
    let before = (runs.clone(), entries.clone());
    match calls.changes(&bytes(args[0]), &bytes(args[1]), &mut runs, &mut entries) {
        Ok((r, e)) => format!("ok {r} {e} {} {}", joined(&runs), joined(&entries)),
        Err(refusal) => {
            assert_eq!((runs, entries), before, "a refused call changes nothing");
            refusal.to_string()
        }
    }
}

/// What an answer tells of the form of a text: refusal 6, or that it is not given.
fn form<T>(result: Result<T, Refusal>) -> String {
    match result {
        Err(refusal @ Refusal::IllFormed { .. }) => refusal.to_string(),
        _ => "ok".to_string(),
    }
}

/// The form of a text by one-token calls at each of its code points.
fn form_by_places(calls: &impl Calls, image: &[u8], text: &[u8]) -> String {
    let mut place = 0;
    while place < text.len() {
        let form = form(calls.at(image, text, place));
        if form != "ok" {
            return form;
        }
        place += first(&text[place..]).map_or(1, |(_, length)| length);
    }
    "ok".to_string()
}

/// The form of a text, as every call on tokens or hashtags tells it; all that they tell if they disagree.
fn run_form(calls: &impl Calls, text: &str) -> String {
    let text = bytes(text);
    let mut forms = Vec::new();
    for name in FORM_IMAGES {
        let image = std::fs::read(format!("{FOLDER}{name}")).unwrap();
        forms.push(form(calls.count(&image, &text)));
        forms.push(form(calls.list(&image, &text, &mut [7; 24])));
        forms.push(form(calls.list(&image, &text, &mut [])));
        forms.push(form(calls.hashtags(&image, &text, &mut [7; 24])));
        forms.push(form(calls.hashtags(&image, &text, &mut [])));
        forms.push(form_by_places(calls, &image, &text));
    }
    forms.dedup();
    forms.join(" or ")
}

/// The answer as the vectors write it; nothing if the reader has no such call.
fn run(calls: &impl Calls, call: &str, args: &[&str]) -> Option<String> {
    Some(match call {
        "check" => answer_of(calls.check(&bytes(args[0])), |c| {
            format!("ok {} {} {}", c.version, c.ranges, c.entries)
        }),
        "read" => run_read(calls, args[0], args[1]),
        "write" => run_write(calls, args),
        "lookup" => {
            answer_of(calls.lookup(&bytes(args[0]), args[1].parse().unwrap()), |(class, looked)| {
                format!("ok {class} {looked}")
            })
        }
        "pair" => run_pair(calls, args[0], args[1]),
        "changes" => run_changes(calls, args),
        "count" => answer_of(calls.count(&bytes(args[0]), &bytes(args[1])), |n| format!("ok {n}")),
        "list" => run_list(args, |image, text, words| calls.list(image, text, words)),
        "hashtags" => run_list(args, |image, text, words| calls.hashtags(image, text, words)),
        "at" => run_at(calls, args[0], args[1], args[2]),
        "form" => run_form(calls, args[0]),
        "part" => {
            let text = bytes(args[0]);
            let result = calls.part(&text, args[1].parse().unwrap(), args[2].parse().unwrap());
            answer_of(result, |part| format!("ok {}", hex(part)))
        }
        "lister" => calls.lister(&bytes(args[0]))?.trim_end().replace('\n', ";"),
        _ => panic!("unknown call {call}"),
    })
}

/// All that the vectors hold as bytes, in arguments and answers, of at least so many.
pub fn all_bytes(least: usize) -> Vec<Vec<u8>> {
    let is_hex =
        |field: &&str| field.len() >= 2 * least && field.bytes().all(|b| b.is_ascii_hexdigit());
    let read = |file: &&str| std::fs::read_to_string(format!("{FOLDER}{file}")).unwrap();
    let files: Vec<String> = FILES.iter().map(read).collect();
    files.iter().flat_map(|file| file.split_whitespace()).filter(is_hex).map(bytes).collect()
}

/// Runs every vector of a file, adds how many of each call were run, and gives the number of wrong answers.
fn run_file(calls: &impl Calls, file: &str, counts: &mut BTreeMap<String, usize>) -> usize {
    let vectors = std::fs::read_to_string(format!("{FOLDER}{file}")).unwrap();
    let mut wrong = 0;
    for (i, line) in vectors.lines().enumerate() {
        let (case, expected) = line.split_once(" => ").unwrap();
        let fields: Vec<&str> = case.split(' ').collect();
        let answer = match run(calls, fields[0], &fields[1..]) {
            Some(answer) => answer,
            None => continue,
        };
        *counts.entry(fields[0].to_string()).or_default() += 1;
        if answer != expected {
            wrong += 1;
            println!("{file}, line {}: {line}\n  given: {answer}", i + 1);
        }
    }
    wrong
}

/// Runs every vector, prints how many of each call were run, and gives the
/// number of calls that have any.
pub fn run_all(calls: &impl Calls) -> usize {
    let mut counts = BTreeMap::new();
    let wrong: usize = FILES.iter().map(|file| run_file(calls, file, &mut counts)).sum();
    // Written past the test harness, so that it is always seen.
    let mut out = std::io::stdout();
    for (call, count) in &counts {
        writeln!(out, "vectors {call}: {count}").unwrap();
    }
    assert_eq!(wrong, 0, "disagreements");
    counts.len()
}
