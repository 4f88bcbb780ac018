//! Reads the assigned code points of `UnicodeData.txt`. It tells no version and no totals, so each of its code points,
//! and each that it lacks, is held to `DerivedCoreProperties.txt`.

use crate::category::category;
use crate::properties::PropertyFile;
use crate::sources::CORE;
use crate::span::{point, Span};
use crate::text::{of_file, of_line, read_source, shown};
use luffinarc::Version;
use std::path::Path;

/// The last code point that is assigned: the last for private use, in every version.
const LAST: u32 = 0x10FFFD;

/// The categories that have the same code points in every version.
const FIXED: [(&str, &[Span]); 5] = [
    ("Cc", &[(0x0000, 0x001F), (0x007F, 0x009F)]),
    ("Zl", &[(0x2028, 0x2028)]),
    ("Zp", &[(0x2029, 0x2029)]),
    ("Cs", &[(0xD800, 0xDFFF)]),
    ("Co", &[(0xE000, 0xF8FF), (0xF0000, 0xFFFFD), (0x100000, LAST)]),
];

/// The properties that together have every other assigned code point. All but those of Cf, the graphic ones, are in
/// one of the first two; those of Cf are in the third.
const HELD_TO: [&str; 3] = ["Grapheme_Base", "Grapheme_Extend", "Case_Ignorable"];

const GRAPHIC: &str = "Grapheme_Base or Grapheme_Extend";

/// A line of `UnicodeData.txt`: its code point, name and General_Category.
fn data_line(line: &str) -> Result<(u32, &str, &'static str), String> {
    let fields: Vec<&str> = line.split(';').collect();
    if fields.len() != 15 {
        return Err(format!("not of 15 fields: {}", shown(line)));
    }
    match category(fields[2])? {
        "Cn" => Err("Cn is the General_Category of no line".to_string()),
        category => Ok((point(fields[0])?, fields[1], category)),
    }
}

/// The code points of a line or of two, and their General_Category.
type Data = (Span, &'static str);

/// What was read of `UnicodeData.txt`.
#[derive(Default)]
struct Lines {
    data: Vec<Data>,
    /// The code point and name of a line `<NAME, First>` whose `<NAME, Last>` comes next.
    open: Option<(u32, String)>,
}

impl Lines {
    fn line(&mut self, line: &str) -> Result<(), String> {
        let (here, name, category) = data_line(line)?;
        let before = self.open.as_ref().map(|open| open.0).or(self.last());
        if let Some(before) = before.filter(|&before| here <= before) {
            return Err(format!("U+{here:04X} is not above U+{before:04X}"));
        }
        let paired = |end| name.strip_prefix('<').and_then(|name| name.strip_suffix(end));
        match (self.open.take(), paired(", First>"), paired(", Last>")) {
            (Some((first, open)), None, Some(name)) if open == name => {
                self.data.push(((first, here), category));
            }
            (Some((_, open)), _, _) => {
                return Err(format!("not <{}, Last>, after its First", shown(&open)))
            }
            (None, _, Some(name)) => {
                return Err(format!("<{}, Last> without a First", shown(name)))
            }
            (None, Some(name), None) => self.open = Some((here, name.to_string())),
            (None, None, None) => self.data.push(((here, here), category)),
        }
        Ok(())
    }

    /// The last code point.
    fn last(&self) -> Option<u32> {
        self.data.last().map(|(span, _)| span.1)
    }
}

/// What is known of a code point without `UnicodeData.txt`.
#[derive(Clone, Copy, Default)]
struct Known {
    fixed: Option<&'static str>,
    graphic: bool,
    ignorable: bool,
}

impl Known {
    /// What is known of every code point.
    fn all(core: &PropertyFile) -> Result<Vec<Known>, String> {
        let mut all = vec![Known::default(); 0x110000];
        let mut add = |spans: &[Span], add: &dyn Fn(&mut Known)| {
            for &(first, last) in spans {
                all[first as usize..=last as usize].iter_mut().for_each(add);
            }
        };
        for (category, spans) in FIXED {
            add(spans, &|known| known.fixed = Some(category));
        }
        let [base, extend, ignorable] = HELD_TO;
        add(core.spans(base)?, &|known| known.graphic = true);
        add(core.spans(extend)?, &|known| known.graphic = true);
        add(core.spans(ignorable)?, &|known| known.ignorable = true);
        Ok(all)
    }

    /// A code point with this General_Category, or without a line, is as it is known. The error follows its number.
    fn check(self, category: Option<&str>) -> Result<(), String> {
        let is_fixed = FIXED.iter().any(|&(fixed, _)| Some(fixed) == category);
        match (category, self.fixed) {
            (None, Some(fixed)) => Err(format!("has no line, but is {fixed} in every version")),
            (None, _) if self.graphic => Err(format!("has no line, but is in {GRAPHIC}")),
            (None, _) if self.ignorable => Err("has no line, but is in Case_Ignorable".into()),
            (None, _) => Ok(()),
            (Some(category), Some(fixed)) if category == fixed => Ok(()),
            (Some(category), Some(fixed)) => {
                Err(format!("is {category} here, but {fixed} in every version"))
            }
            (Some(category), None) if is_fixed => {
                Err(format!("is {category} here, but in no version"))
            }
            (Some("Cf"), _) if self.ignorable => Ok(()),
            (Some("Cf"), _) => Err("is Cf, but not in Case_Ignorable".into()),
            (Some(_), _) if self.graphic => Ok(()),
            (Some(_), _) => Err(format!("is not in {GRAPHIC}")),
        }
    }
}

/// The assigned code points are those that are known.
fn check_data(data: &[Data], known: &[Known]) -> Result<(), String> {
    let mut categories = vec![None; 0x110000];
    for &((first, last), category) in data {
        categories[first as usize..=last as usize].fill(Some(category));
    }
    for (point, (category, known)) in categories.into_iter().zip(known).enumerate() {
        known.check(category).map_err(|why| format!("U+{point:04X} {why}"))?;
    }
    Ok(())
}

/// The assigned code points of `UnicodeData.txt`.
pub fn unicode_data(
    file: &Path,
    version: Version,
    core: &PropertyFile,
) -> Result<Vec<Span>, String> {
    let text = read_source(file)?;
    if let Some(lacking) = HELD_TO.iter().find(|&wanted| core.names().all(|name| name != *wanted)) {
        let why = format!("can't be held to Unicode {version}: {CORE} has no {lacking}");
        return Err(of_file(file, why));
    }
    if !text.ends_with('\n') {
        return Err(of_file(file, "ends too early: its last line has no end"));
    }
    let mut lines = Lines::default();
    for (i, line) in text.lines().enumerate() {
        lines.line(line).map_err(|why| of_line(file, i + 1, why))?;
    }
    if lines.open.is_some() || lines.last() != Some(LAST) {
        return Err(of_file(file, format!("ends too early: not at U+{LAST:X}")));
    }
    let known = Known::all(core)?;
    check_data(&lines.data, &known).map_err(|why| of_file(file, why))?;
    Ok(lines.data.into_iter().map(|(span, _)| span).collect())
}
