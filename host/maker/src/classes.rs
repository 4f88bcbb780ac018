//! From sets of code points to the ranges of an image.

use crate::span::Span;
use crate::ucd::Sets;
use luffinarc::{Class, Range};

const XID_START: u8 = 1;
const XID_CONTINUE: u8 = 2;
const SYNTAX: u8 = 4;
const WHITE: u8 = 8;
const ASSIGNED: u8 = 16;

/// The sets that each code point is in.
fn mark(sets: &Sets) -> Vec<u8> {
    let mut marks = vec![0; 0x110000];
    let mut add = |spans: &[Span], mark: u8| {
        for &(first, last) in spans {
            marks[first as usize..=last as usize].iter_mut().for_each(|m| *m |= mark);
        }
    };
    add(&sets.xid_start, XID_START);
    add(&sets.xid_continue, XID_CONTINUE);
    add(&sets.syntax, SYNTAX);
    add(&sets.white, WHITE);
    add(&sets.assigned, ASSIGNED);
    marks
}

/// The class of a code point in these sets.
fn class(marks: u8) -> Result<Class, &'static str> {
    let known = marks & ASSIGNED != 0;
    match marks & !ASSIGNED {
        SYNTAX => Ok(Class::Syntax),
        WHITE => Ok(Class::White),
        0 if known => Ok(Class::Other),
        0 => Ok(Class::Unassigned),
        m if m & (SYNTAX | WHITE) == SYNTAX | WHITE => {
            Err("in Pattern_Syntax and Pattern_White_Space")
        }
        m if m & SYNTAX != 0 => Err("in an identifier class and Pattern_Syntax"),
        m if m & WHITE != 0 => Err("in an identifier class and Pattern_White_Space"),
        XID_START => Err("in XID_Start, not in XID_Continue"),
        _ if !known => Err("in an identifier class, not assigned"),
        XID_CONTINUE => Ok(Class::Nonstart),
        _ => Ok(Class::Start),
    }
}

/// The ranges; neighbours of one class are joined.
pub fn ranges(sets: &Sets) -> Result<Vec<Range>, String> {
    let marks = mark(sets);
    let mut ranges: Vec<Range> = Vec::new();
    for point in (0..0xD800).chain(0xE000..0x110000) {
        let class =
            class(marks[point as usize]).map_err(|why| format!("U+{point:04X} is {why}"))?;
        match ranges.last_mut() {
            Some(range) if range.last + 1 == point && range.class == class => range.last = point,
            _ if class == Class::Unassigned => {}
            _ => ranges.push(Range { first: point, last: point, class }),
        }
    }
    Ok(ranges)
}
