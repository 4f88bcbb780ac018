//! Lines and columns of the bytes of a text.

/// Whether a character ends a line (docs/RULES.md, "Lines").
pub fn ends_line(c: char) -> bool {
    matches!(c, '\n' | '\u{B}' | '\u{C}' | '\r' | '\u{85}' | '\u{2028}' | '\u{2029}')
}

/// Where a byte stands: line and column, both from 1. Columns count characters.
#[derive(Clone, Copy, Debug, PartialEq, Eq)]
pub struct Place {
    pub line: u32,
    pub column: u32,
}

/// Goes through a well-formed text and tells the place of bytes that rise.
pub struct Places<'a> {
    text: &'a str,
    at: usize,
    line_start: usize,
    place: Place,
}

impl<'a> Places<'a> {
    pub fn new(text: &'a str) -> Places<'a> {
        Places { text, at: 0, line_start: 0, place: Place { line: 1, column: 1 } }
    }

    /// The place of a byte at which a character begins, or of the text's end; not before the one asked for last.
    pub fn of(&mut self, byte: usize) -> Place {
        for c in self.text[self.at..byte].chars() {
            self.at += c.len_utf8();
            let goes_on = c == '\r' && self.text[self.at..].starts_with('\n');
            if ends_line(c) && !goes_on {
                self.place = Place { line: self.place.line + 1, column: 1 };
                self.line_start = self.at;
            } else {
                self.place.column += 1;
            }
        }
        self.place
    }
}

/// The longest front of a text that is well-formed.
pub fn well_formed_front(text: &[u8]) -> &str {
    match std::str::from_utf8(text) {
        Ok(text) => text,
        Err(error) => std::str::from_utf8(&text[..error.valid_up_to()]).unwrap_or(""),
    }
}

/// The place of a byte, and the first byte of its line. What stands before the byte is well-formed.
pub fn place_of(text: &[u8], byte: usize) -> (Place, usize) {
    let mut places = Places::new(well_formed_front(text));
    let place = places.of(byte);
    (place, places.line_start)
}
