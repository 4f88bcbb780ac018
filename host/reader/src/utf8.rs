//! UTF-8 by Table 3-7 of the Unicode Standard.

/// The table's rows: the bounds of each byte of a sequence.
const ROWS: [&[(u8, u8)]; 9] = [
    &[(0x00, 0x7F)],
    &[(0xC2, 0xDF), (0x80, 0xBF)],
    &[(0xE0, 0xE0), (0xA0, 0xBF), (0x80, 0xBF)],
    &[(0xE1, 0xEC), (0x80, 0xBF), (0x80, 0xBF)],
    &[(0xED, 0xED), (0x80, 0x9F), (0x80, 0xBF)],
    &[(0xEE, 0xEF), (0x80, 0xBF), (0x80, 0xBF)],
    &[(0xF0, 0xF0), (0x90, 0xBF), (0x80, 0xBF), (0x80, 0xBF)],
    &[(0xF1, 0xF3), (0x80, 0xBF), (0x80, 0xBF), (0x80, 0xBF)],
    &[(0xF4, 0xF4), (0x80, 0x8F), (0x80, 0xBF), (0x80, 0xBF)],
];

/// A code point and the bytes that it fills in a text.
#[derive(Clone, Copy, Debug, PartialEq, Eq)]
pub struct Placed {
    pub point: u32,
    pub start: usize,
    pub end: usize,
}

/// True for 0 to 10FFFF without D800 to DFFF.
pub fn is_scalar(number: u32) -> bool {
    number <= 0x10FFFF && !(0xD800..=0xDFFF).contains(&number)
}

/// True if each byte is within the bounds at its place in this row, as far as both go.
fn within(row: &[(u8, u8)], bytes: &[u8]) -> bool {
    row.iter().zip(bytes).all(|(&(low, high), &b)| low <= b && b <= high)
}

/// True if the bytes begin with a sequence of this row.
fn fills(row: &[(u8, u8)], bytes: &[u8]) -> bool {
    bytes.len() >= row.len() && within(row, bytes)
}

/// True if some sequence of this row begins with the bytes.
fn continues(row: &[(u8, u8)], bytes: &[u8]) -> bool {
    bytes.len() <= row.len() && within(row, bytes)
}

/// The length of the maximal subpart that begins the bytes, which begin with no sequence (D93b): of the longest bytes
/// that some sequence begins with, or of one byte.
pub fn maximal_subpart(bytes: &[u8]) -> usize {
    let initial = |length: &usize| ROWS.iter().any(|row| continues(row, &bytes[..*length]));
    (1..=bytes.len()).filter(initial).max().unwrap_or(1)
}

/// The code point whose sequence begins the bytes, and its length.
pub fn first(bytes: &[u8]) -> Option<(u32, usize)> {
    let length = ROWS.iter().find(|row| fills(row, bytes))?.len();
    let lead = match length {
        1 => bytes[0],
        2 => bytes[0] & 0x1F,
        3 => bytes[0] & 0x0F,
        _ => bytes[0] & 0x07,
    };
    let mut point = u32::from(lead);
    for &byte in &bytes[1..length] {
        point = point * 64 + u32::from(byte & 0x3F);
    }
    Some((point, length))
}

/// The code points before the first ill-formed place, and that place or the
/// text's end.
pub fn decode(text: &[u8]) -> (Vec<Placed>, usize) {
    let mut points = Vec::new();
    let mut start = 0;
    while let Some((point, length)) = first(&text[start..]) {
        points.push(Placed { point, start, end: start + length });
        start += length;
    }
    (points, start)
}
