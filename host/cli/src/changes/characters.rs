//! The characters of a run, where they can be shown.

use crate::text;
use luffinarc::Run;

/// A run of at most so many code points is shown with each character, a longer one with its first and last.
const EACH: u32 = 8;

/// The characters of a run that can be shown, each as `wrap` makes it: of a short run each, of a long one the first and
/// the last.
pub fn of_run(run: &Run, wrap: impl Fn(&str) -> String) -> String {
    let shown = |point: u32| {
        let glyph = char::from_u32(point).and_then(text::glyph);
        glyph.map(|glyph| wrap(&glyph))
    };
    if run.last - run.first < EACH {
        return (run.first..=run.last).filter_map(shown).collect::<Vec<_>>().join(" ");
    }
    let (first, last) = (shown(run.first), shown(run.last));
    if first.is_none() && last.is_none() {
        return String::new();
    }
    let all = [first, Some("…".to_string()), last];
    all.into_iter().flatten().collect::<Vec<_>>().join(" ")
}

/// The character of a code point, where it can be shown.
pub fn of_point(point: u32) -> String {
    char::from_u32(point).and_then(text::glyph).unwrap_or_default()
}
