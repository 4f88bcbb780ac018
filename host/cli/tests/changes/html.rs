//! A small reader of the pages: tags are balanced, attributes quoted, texts escaped, names of places unique.

use std::collections::BTreeSet;

/// A tag that opens an element.
#[derive(Debug)]
pub struct Tag {
    pub name: String,
    pub attributes: Vec<(String, String)>,
    /// The text right after the tag.
    pub text: String,
}

impl Tag {
    /// The value of an attribute, empty where it isn't there.
    pub fn get(&self, name: &str) -> &str {
        self.attributes.iter().find(|a| a.0 == name).map_or("", |a| a.1.as_str())
    }

    pub fn has_class(&self, class: &str) -> bool {
        self.get("class").split(' ').any(|c| c == class)
    }
}

/// Elements that have no end.
const VOID: [&str; 3] = ["meta", "br", "input"];

/// A text without its escapes; nothing that must be escaped stands in it.
pub fn plain(escaped: &str) -> String {
    assert!(!escaped.contains(['<', '>', '"']), "unescaped: {escaped}");
    let mut plain = String::new();
    let mut parts = escaped.split('&');
    plain.push_str(parts.next().unwrap());
    for part in parts {
        let (name, rest) = part.split_once(';').expect("an escape ends");
        plain.push_str(match name {
            "amp" => "&",
            "lt" => "<",
            "gt" => ">",
            "quot" => "\"",
            "#39" => "'",
            other => panic!("escape {other}"),
        });
        plain.push_str(rest);
    }
    plain
}

/// The attributes of a tag: `name="value"`, or a name alone.
fn attributes(mut rest: &str) -> Vec<(String, String)> {
    let mut found: Vec<(String, String)> = Vec::new();
    loop {
        rest = rest.trim_start();
        if rest.is_empty() {
            return found;
        }
        let past = rest.find([' ', '=']).unwrap_or(rest.len());
        let (name, after) = rest.split_at(past);
        let (value, after) = match after.strip_prefix("=\"") {
            Some(value) => value.split_once('"').expect("closing quotes"),
            None => ("", after),
        };
        assert!(found.iter().all(|a| a.0 != name), "{name} twice");
        found.push((name.to_string(), plain(value)));
        rest = after;
    }
}

/// Where a tag ends: the first `>` that isn't in quotes.
fn end_of_tag(text: &str) -> usize {
    let mut in_quotes = false;
    for (i, c) in text.char_indices() {
        match c {
            '"' => in_quotes = !in_quotes,
            '>' if !in_quotes => return i,
            _ => {}
        }
    }
    panic!("a tag without end: {text:.60}")
}

/// Reads a page, and gives its tags.
pub fn read(page: &str) -> Vec<Tag> {
    let mut rest = page.strip_prefix("<!DOCTYPE html>\n").expect("a document of HTML5");
    let (mut tags, mut open) = (Vec::<Tag>::new(), Vec::<String>::new());
    while let Some(at) = rest.find('<') {
        assert!(!plain(&rest[..at]).contains(|c: char| c.is_control() && c != '\n'));
        let end = at + end_of_tag(&rest[at..]);
        let (inside, after) = (&rest[at + 1..end], &rest[end + 1..]);
        rest = after;
        if let Some(name) = inside.strip_prefix('/') {
            assert_eq!(open.pop().as_deref(), Some(name), "before {rest:.60}");
            continue;
        }
        let is_closed = inside.ends_with('/');
        let inside = inside.trim_end_matches('/');
        let (name, others) = inside.split_once(' ').unwrap_or((inside, ""));
        let mut text = rest.split('<').next().unwrap_or("").to_string();
        if name == "style" {
            text = rest.split("</style>").next().unwrap().to_string();
            rest = &rest[text.len()..];
        } else {
            text = plain(&text);
        }
        if !is_closed && !VOID.contains(&name) {
            open.push(name.to_string());
        }
        tags.push(Tag { name: name.to_string(), attributes: attributes(others), text });
    }
    assert_eq!((open.len(), rest), (0, "\n"), "all elements end");
    check_places(&tags);
    tags
}

/// Places have names of their own, and links lead to some.
fn check_places(tags: &[Tag]) {
    let mut places = BTreeSet::new();
    for tag in tags.iter().filter(|tag| !tag.get("id").is_empty()) {
        assert!(places.insert(tag.get("id")), "{} twice", tag.get("id"));
    }
    for tag in tags.iter().filter(|tag| !tag.get("href").is_empty()) {
        let place = tag.get("href").strip_prefix('#').expect("nothing from outside");
        assert!(places.contains(place), "{place}: no such place");
    }
}
