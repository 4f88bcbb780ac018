//! Hashtags in flowing text: each sign is judged by the code points right before and after it.

use crate::image::{parse, Image};
use crate::line::{line_ends, line_of};
use crate::names::{class, kind, role};
use crate::record::{write_records, Record};
use crate::refusal::Refusal;
use crate::token::whole_text;
use crate::utf8::Placed;

/// The code points that begin a hashtag.
pub const SIGNS: [u32; 3] = [0x23, 0xFE5F, 0xFF03];

/// True for Start, Nonstart and role 5, but for none of the signs.
pub fn is_hashtag_continue(image: &Image, point: u32) -> bool {
    let class = image.class(point);
    let in_tags =
        class == class::START || class == class::NONSTART || image.role(point) == role::HASHTAG;
    in_tags && !SIGNS.contains(&point)
}

/// The text's hashtags, or the first of refusals 5 and 6.
fn hashtags_of(image: &Image, text: &[u8]) -> Result<Vec<Record>, Refusal> {
    let points = whole_text(text)?;
    let ends = line_ends(&points);
    let continues = |p: &Placed| is_hashtag_continue(image, p.point);
    let mut tags = Vec::new();
    for (i, sign) in points.iter().enumerate().filter(|(_, p)| SIGNS.contains(&p.point)) {
        let (before, after) = (&points[..i], &points[i + 1..]);
        let length = after.iter().position(|p| !continues(p)).unwrap_or(after.len());
        if length > 0 && !before.last().map_or(false, continues) {
            let (start, end) = (sign.start, after[length - 1].end);
            tags.push([kind::HASHTAG, start as u32, end as u32, line_of(&ends, start)]);
        }
    }
    Ok(tags)
}

/// Writes the text's hashtags to the lent words, a record each, and counts them.
pub fn hashtags(image: &[u8], text: &[u8], words: &mut [u32]) -> Result<usize, Refusal> {
    write_records(&hashtags_of(&parse(image)?, text)?, words)
}
