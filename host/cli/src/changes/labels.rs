//! What the picture of the code space says in words.

use super::cells::{column, Layout, CELL, LEFT, TOP};
use super::page::span;
use std::fmt::Write;

/// The name and the code points of a plane.
pub fn title(plane: u32) -> String {
    let name = match plane {
        0 => "Basic Multilingual Plane, ",
        1 => "Supplementary Multilingual Plane, ",
        2 => "Supplementary Ideographic Plane, ",
        3 => "Tertiary Ideographic Plane, ",
        14 => "Supplementary Special-purpose Plane, ",
        15 => "Supplementary Private Use Area-A, ",
        16 => "Supplementary Private Use Area-B, ",
        _ => "",
    };
    format!("Plane {plane}: {name}{}", span(plane << 16, plane << 16 | 0xFFFF))
}

/// The labels of columns, of rows, and of rows that are left out.
pub fn labels(layout: &Layout) -> String {
    let mut svg = String::from("<g class=\"columns\">");
    for number in 0..16 {
        let middle = column(number) + CELL / 2;
        let _ = write!(svg, "<text x=\"{middle}\" y=\"{}\">{number:X}00</text>", TOP - 3);
    }
    svg.push_str("</g><g class=\"rows\">");
    for (row, top) in layout.rows() {
        let _ = write!(svg, "<text x=\"{}\" y=\"{}\">{row:X}000</text>", LEFT - 4, top + 11);
    }
    svg.push_str("</g>");
    for gap in &layout.gaps {
        let rows = span(gap.first << 12, gap.last << 12 | 0xFFF);
        let y = gap.top + 8;
        let _ = write!(svg, "<text x=\"{LEFT}\" y=\"{y}\">{rows}: nothing assigned</text>");
    }
    svg
}

/// Planes in words, as `4 to 13`.
pub fn planes_in_words(planes: &[u32]) -> String {
    let mut spans: Vec<(u32, u32)> = Vec::new();
    for &plane in planes {
        match spans.last_mut() {
            Some(before) if before.1 + 1 == plane => before.1 = plane,
            _ => spans.push((plane, plane)),
        }
    }
    let word = |&(first, last): &(u32, u32)| match last - first {
        0 => first.to_string(),
        _ => format!("{first} to {last}"),
    };
    spans.iter().map(word).collect::<Vec<_>>().join(", ")
}
