//! Refusal 14 as the reader gives it, by a second division of the text, against a test of what stands beside a mark.

use luffinarc_reader::cases::{image_of, marked_case, Rng, Tally};
use luffinarc_reader::image::{parse, Image, Range};
use luffinarc_reader::*;

/// The tokens of a text, each taken by itself; nothing where the text is refused for its bytes or characters.
fn tokens(image: &[u8], text: &[u8]) -> Option<Vec<Token>> {
    let (mut tokens, mut place) = (Vec::new(), 0);
    while let Some(token) = at(image, text, place).ok()? {
        place = token.end;
        tokens.push(token);
    }
    Some(tokens)
}

/// The first code point of the text from the place on: whether it is Continue, and whether it is a medial that is
/// Syntax.
fn first_at(image: &Image, text: &[u8], place: usize) -> Option<(bool, bool)> {
    let (point, _) = utf8::first(&text[place..])?;
    let class = image.class(point);
    let joins = class == class::SYNTAX && image.role(point) == role::MEDIAL;
    Some((class == class::START || class == class::NONSTART, joins))
}

/// What the mark, a token with this index, stands between, and whether it parts a token: both are identifiers; or an
/// identifier, and a medial that is Syntax with Continue after it; or such a medial right after an identifier, and an
/// identifier.
fn beside(image: &Image, text: &[u8], tokens: &[Token], i: usize) -> Option<(String, bool)> {
    let (left, right) = (*tokens[..i].last()?, *tokens.get(i + 1)?);
    let joins = |token: Token| first_at(image, text, token.start).map_or(false, |first| first.1);
    let after_name = i > 1 && tokens[i - 2].kind == kind::IDENTIFIER;
    let before_more = first_at(image, text, right.end).map_or(false, |first| first.0);
    let left = match left.kind {
        kind::IDENTIFIER => "name",
        kind::SYNTAX if !joins(left) => "syntax",
        kind::SYNTAX if after_name => "medial after a name",
        kind::SYNTAX => "medial",
        _ => return None,
    };
    let right = match right.kind {
        kind::IDENTIFIER => "name",
        kind::SYNTAX if !joins(right) => "syntax",
        kind::SYNTAX if before_more => "medial before more",
        kind::SYNTAX => "medial",
        _ => return None,
    };
    let parts = [("name", "name"), ("name", "medial before more"), ("medial after a name", "name")];
    Some((format!("{left} | {right}"), parts.contains(&(left, right))))
}

/// The reader's answer is the one by what stands beside marks. Names what the first mark that is refused stands
/// between, or all where none is.
fn compare(bytes: &[u8], text: &[u8], tally: &mut Tally) {
    let (image, given) = (parse(bytes).unwrap(), count(bytes, text));
    let tokens = match tokens(bytes, text) {
        Some(tokens) => tokens,
        None => return assert!(matches!(given, Err(refusal) if refusal.number() < 8)),
    };
    let mut names = Vec::new();
    for (i, mark) in tokens.iter().enumerate().filter(|(_, token)| token.kind == kind::MARK) {
        let (name, parts) = match beside(&image, text, &tokens, i) {
            Some(beside) => beside,
            None => continue,
        };
        if parts {
            assert_eq!(given, Err(Refusal::Mark(mark.start as u64)), "{text:02X?} {bytes:02X?}");
            return tally.name(&format!("{name}: refused"));
        }
        names.push(name);
    }
    assert_eq!(given, Ok(tokens.len()), "{text:02X?} {bytes:02X?}");
    names.iter().for_each(|name| tally.name(name));
}

/// All that can stand on both sides of a mark. Before more there is a letter: a digit would begin no token.
const BESIDE: &str = "name | name: refused,name | medial before more: refused,name | medial,name | syntax,\
    medial after a name | name: refused,medial after a name | medial before more,medial after a name | medial,\
    medial after a name | syntax,medial | name,medial | medial before more,medial | medial,medial | syntax,\
    syntax | name,syntax | medial before more,syntax | medial,syntax | syntax";

#[test]
fn made_texts() {
    let (mut rng, mut tally) = (Rng::seeded(13), Tally::default());
    for _ in 0..100_000 {
        let case = marked_case(&mut rng);
        compare(&case.older, &case.text, &mut tally);
    }
    tally.close("beside marks", BESIDE);
}

/// Every text of up to six characters from seven.
#[test]
fn every_short_text() {
    let ranges = [
        (0x0A, class::WHITE),
        (0x20, class::WHITE),
        (0x2B, class::SYNTAX),
        (0x2E, class::SYNTAX),
        (0x31, class::NONSTART),
        (0x61, class::START),
        (0x200E, class::WHITE),
    ];
    let range = |(point, class)| Range { first: point, last: point, class };
    let profile = Profile::of(&[(0x2E, role::MEDIAL)]);
    let image = image_of(&Image { version: 1, ranges: ranges.map(range).to_vec(), profile });
    let pieces = ["a", "1", ".", "+", " ", "\n", "\u{200E}"];
    let mut tally = Tally::default();
    for length in 0..=6 {
        for number in 0..pieces.len().pow(length) {
            let piece = |i| pieces[number / pieces.len().pow(i) % pieces.len()];
            let text: String = (0..length).map(piece).collect();
            compare(&image, text.as_bytes(), &mut tally);
        }
    }
    tally.close("beside marks in short texts", BESIDE);
}
