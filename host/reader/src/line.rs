//! Lines: where they end in a text, and the line of a place.

use crate::utf8::Placed;

const LF: u32 = 0x0A;
const CR: u32 = 0x0D;

/// The code points that end a line.
pub const LINE_ENDS: [u32; 7] = [LF, 0x0B, 0x0C, CR, 0x85, 0x2028, 0x2029];

/// True if the first of the code points ends a line. CR with LF right after it does not: the LF does.
fn ends_line(points: &[Placed]) -> bool {
    let cr_lf = points[0].point == CR && points.get(1).map_or(false, |next| next.point == LF);
    LINE_ENDS.contains(&points[0].point) && !cr_lf
}

/// The last byte of each line end of a text, by all its code points. The places rise.
pub fn line_ends(points: &[Placed]) -> Vec<usize> {
    let ends = (0..points.len()).filter(|&i| ends_line(&points[i..]));
    ends.map(|i| points[i].end - 1).collect()
}

/// The line of a byte place: one more than the number of line ends whose last byte stands before it.
pub fn line_of(ends: &[usize], place: usize) -> u32 {
    1 + ends.partition_point(|&last| last < place) as u32
}
