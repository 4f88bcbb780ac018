//! Refusals as a compiler shows its errors: the place, the line with the place underlined, the reason, what to do.

use crate::advice::{about_bytes, about_character, marks_at};
use crate::console::{Paint, Style};
use crate::damage;
use crate::input::Input;
use crate::place::{self, Place};
use crate::source::{underline, Underlined};
use crate::text::{self, code_point, object, thousands};
use luffinarc::{Image, Refusal, MAX_TEXT};
use std::fmt::Write;
use std::ops::Range;

/// A place of a text with its line.
struct Spot {
    place: Place,
    shown: Underlined,
    label: String,
}

/// A refusal with all that is told of it.
pub struct Report {
    refusal: Refusal,
    file: String,
    spot: Option<Spot>,
    notes: Vec<(&'static str, String)>,
}

/// The character that begins at a byte.
fn char_at(text: &[u8], byte: usize) -> Option<char> {
    place::well_formed_front(&text[byte..]).chars().next()
}

/// A code point with its character, where that can be printed.
pub fn named(number: u32) -> String {
    match char::from_u32(number).and_then(text::glyph) {
        Some(glyph) => format!("{} {glyph}", code_point(number)),
        None => code_point(number),
    }
}

/// A code point with its character in quotes, where that can be seen.
fn quoted(c: char) -> String {
    let glyph = text::glyph(c).map_or(String::new(), |glyph| format!(" '{glyph}'"));
    code_point(c.into()) + &glyph
}

/// A refusal as an object of JSON.
pub fn json(refusal: &Refusal) -> String {
    let carried: Vec<String> = refusal.carried().map(|number| number.to_string()).collect();
    object(&[
        ("number", refusal.number().to_string()),
        ("name", text::json(refusal.name())),
        ("meaning", text::json(refusal.text())),
        ("carried", format!("[{}]", carried.join(","))),
    ])
}

impl Report {
    fn new(refusal: Refusal, file: &str) -> Report {
        Report { refusal, file: file.to_string(), spot: None, notes: Vec::new() }
    }

    fn spot(mut self, text: &[u8], marked: Range<usize>, label: String) -> Report {
        let (place, line_start) = place::place_of(text, marked.start);
        self.spot = Some(Spot { place, shown: underline(text, line_start, marked), label });
        self
    }

    fn note(mut self, kind: &'static str, text: String) -> Report {
        self.notes.push((kind, text));
        self
    }

    /// A text that an image refuses.
    pub fn of_text(refusal: Refusal, input: &Input, image: &Image) -> Report {
        let (report, text) = (Report::new(refusal, &input.name), &input.bytes);
        match refusal {
            Refusal::TextLength => {
                report.note("note", format!("a text has at most {} bytes", thousands(MAX_TEXT)))
            }
            Refusal::IllFormed { place, len } => {
                let bytes = text[place..place + len].iter().map(|byte| format!("{byte:02X}"));
                let hex = bytes.collect::<Vec<_>>().join(" ");
                let help = about_bytes(text, place).to_string();
                let label = format!("bytes in hex: {hex}");
                report.spot(text, place..place + len, label).note("help", help)
            }
            Refusal::Characters { place } => match char_at(text, place) {
                Some(c) => {
                    let label = format!("{} has class {} in this image", quoted(c), image.class(c));
                    let help = about_character(image, c, place);
                    report.spot(text, place..place + c.len_utf8(), label).note("help", help)
                }
                None => report,
            },
            Refusal::Mark { place } => {
                let (marks, label, help) = marks_at(image, text, place);
                report.spot(text, marks, label.to_string()).note("help", help.to_string())
            }
            _ => report,
        }
    }

    /// An image that is refused.
    pub fn of_image(refusal: Refusal, input: &Input) -> Report {
        let report = Report::new(refusal, &input.name);
        let notes = damage::notes(refusal, &input.bytes);
        notes.into_iter().fold(report, |report, note| report.note("note", note))
    }

    /// A refusal that has no place.
    pub fn plain(refusal: Refusal, what: &str, note: String) -> Report {
        Report::new(refusal, what).note("note", note)
    }

    /// The place, where there is one.
    pub fn place(&self) -> Option<Place> {
        self.spot.as_ref().map(|spot| spot.place)
    }

    /// All that is told in one object of JSON.
    pub fn json(&self) -> String {
        let mut fields = vec![("file", text::json(&self.file)), ("refusal", json(&self.refusal))];
        if let Some(Spot { place, label, .. }) = &self.spot {
            fields.push(("line", place.line.to_string()));
            fields.push(("column", place.column.to_string()));
            fields.push(("label", text::json(label)));
        }
        let notes: Vec<String> = self.notes.iter().map(|(_, note)| text::json(note)).collect();
        fields.push(("notes", format!("[{}]", notes.join(","))));
        object(&fields)
    }

    /// The refusal as it is told on standard error.
    pub fn shown(&self, paint: Paint) -> String {
        let number = format!("error[{}]", self.refusal.number());
        let title = format!(": {}", self.refusal.text());
        let mut shown =
            format!("{}{}\n", paint.with(Style::Red, number), paint.with(Style::Bold, title));
        let digits = self.spot.as_ref().map_or(1, |spot| spot.place.line.to_string().len());
        let margin = " ".repeat(digits);
        let bar = paint.with(Style::Blue, "|");
        let arrow = paint.with(Style::Blue, "-->");
        let _ = write!(shown, "{margin}{arrow} {}", text::visible(&self.file));
        if let Some(Spot { place, shown: line, label }) = &self.spot {
            let number = paint.with(Style::Blue, place.line);
            let carets = format!("{} {label}", "^".repeat(line.carets));
            let carets = paint.with(Style::Red, carets);
            let blanks = " ".repeat(line.blanks);
            let _ = writeln!(shown, ":{}:{}", place.line, place.column);
            let _ = writeln!(shown, "{margin} {bar}");
            let _ = writeln!(shown, "{number} {bar} {}", line.line);
            let _ = write!(shown, "{margin} {bar} {blanks}{carets}");
        }
        let _ = writeln!(shown);
        if self.spot.is_some() && !self.notes.is_empty() {
            let _ = writeln!(shown, "{margin} {bar}");
        }
        for (kind, note) in &self.notes {
            let equals = paint.with(Style::Blue, "=");
            let _ = writeln!(shown, "{margin} {equals} {}: {note}", paint.with(Style::Bold, kind));
        }
        shown
    }
}
