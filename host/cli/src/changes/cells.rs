//! Where the code points of a plane stand in its drawing.
//!
//! A plane has 16 rows of 16 cells, a cell 16 lines of 16 code points. A code point is a square of one unit.

use std::fmt::Write;

/// The side of a cell, and how far cells are apart.
pub const CELL: u32 = 16;
const PITCH: u32 = 18;
/// Room for the labels of rows and columns.
pub const LEFT: u32 = 40;
pub const TOP: u32 = 12;
/// The width of a drawing.
pub const WIDTH: u32 = LEFT + 16 * PITCH;
/// The height of a line for rows that are left out.
const GAP: u32 = 12;

/// Rows that are left out, from one to another, and where that is said.
pub struct Gap {
    pub top: u32,
    pub first: u32,
    pub last: u32,
}

/// The places of a plane's rows. A row is numbered by its code points without their last three hex digits.
pub struct Layout {
    plane: u32,
    tops: [Option<u32>; 16],
    pub gaps: Vec<Gap>,
    pub height: u32,
}

impl Layout {
    /// The drawing of a plane with the rows that are used.
    pub fn new(plane: u32, is_used: impl Fn(u32) -> bool) -> Layout {
        let mut layout = Layout { plane, tops: [None; 16], gaps: Vec::new(), height: TOP };
        for (i, row) in (16 * plane..16 * plane + 16).enumerate() {
            if is_used(row) {
                layout.tops[i] = Some(layout.height);
                layout.height += PITCH;
                continue;
            }
            match layout.gaps.last_mut() {
                Some(gap) if gap.last + 1 == row => gap.last = row,
                _ => {
                    layout.gaps.push(Gap { top: layout.height, first: row, last: row });
                    layout.height += GAP;
                }
            }
        }
        layout
    }

    /// The rows that are drawn, with their places.
    pub fn rows(&self) -> impl Iterator<Item = (u32, u32)> + '_ {
        let row = |(i, top): (u32, &Option<u32>)| Some((16 * self.plane + i, (*top)?));
        (0..16).zip(&self.tops).filter_map(row)
    }

    /// The corner of a cell that is drawn. A cell is numbered by its code points without their last two hex digits.
    pub fn corner(&self, cell: u32) -> Option<(u32, u32)> {
        let top = self.tops[(cell / 16 % 16) as usize]?;
        Some((column(cell % 16), top)).filter(|_| cell / 256 == self.plane)
    }

    /// The part of a span of code points that lies in the plane.
    pub fn clip(&self, (first, last): (u32, u32)) -> Option<(u32, u32)> {
        let (first, last) = (first.max(self.plane << 16), last.min(self.plane << 16 | 0xFFFF));
        (first <= last).then_some((first, last))
    }

    /// The squares of spans of code points, as the data of a path.
    pub fn path(&self, spans: impl Iterator<Item = (u32, u32)>) -> String {
        let mut path = String::new();
        for (first, last) in spans.filter_map(|span| self.clip(span)) {
            for cell in first >> 8..=last >> 8 {
                let from = if cell == first >> 8 { first & 0xFF } else { 0 };
                let to = if cell == last >> 8 { last & 0xFF } else { 0xFF };
                if let Some(corner) = self.corner(cell) {
                    add_part(&mut path, corner, from, to);
                }
            }
        }
        path
    }
}

/// Where a column of cells begins.
pub fn column(number: u32) -> u32 {
    LEFT + PITCH * number
}

/// Adds the squares of a cell from one to another: a line that begins inside, whole lines, a line that ends inside.
fn add_part(path: &mut String, (left, top): (u32, u32), from: u32, to: u32) {
    let mut add = |x: u32, y: u32, width: u32, height: u32| {
        let _ = write!(path, "M{} {}h{width}v{height}h-{width}z", left + x, top + y);
    };
    let (mut first, mut past) = (from / 16, to / 16 + 1);
    if first + 1 == past {
        return add(from % 16, first, to - from + 1, 1);
    }
    if from % 16 != 0 {
        add(from % 16, first, 16 - from % 16, 1);
        first += 1;
    }
    if to % 16 != 15 {
        past -= 1;
        add(0, past, to % 16 + 1, 1);
    }
    if first < past {
        add(0, first, 16, past - first);
    }
}
