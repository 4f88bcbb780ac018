//! Reads a property file: lines `HEX[..HEX] ; PROPERTY`, `#` begins a comment. Three comments count: the first line
//! tells the version, each property has a total after its lines, and `# EOF` is the last line.

use crate::span::{size, span, Span};
use crate::text::{of_file, of_line, read_source, shown};
use luffinarc::Version;
use std::collections::BTreeMap;
use std::path::{Path, PathBuf};

const TOTAL: &str = "# Total code points:";
const END: &str = "# EOF";

/// The code points of one property, or of one of its values.
#[derive(Default)]
struct Property {
    spans: Vec<Span>,
    /// How many code points were read since the last total.
    uncounted: u64,
}

/// A property file that was read and checked.
pub struct PropertyFile {
    file: PathBuf,
    properties: BTreeMap<String, Property>,
}

/// The version that the first line tells, and the one that it should tell: in a file of the database
/// `# NAME-A.B.C.txt`, in a short file `# Unicode A.B,` for A.B.0.
fn told_version<'a>(first: &'a str, file: &Path, version: Version) -> Option<(&'a str, String)> {
    let text = first.strip_prefix("# ")?;
    if let Some(short) = text.strip_prefix("Unicode ") {
        let wanted = version.to_string();
        let wanted = wanted.strip_suffix(".0").unwrap_or(&wanted);
        return Some((short.split_once(',')?.0, wanted.to_string()));
    }
    let versioned = text.strip_prefix(file.file_stem()?.to_str()?)?.strip_prefix('-')?;
    Some((versioned.trim_end().strip_suffix(".txt")?, version.to_string()))
}

fn check_version(text: &str, file: &Path, version: Version) -> Result<(), String> {
    let first = text.lines().next().unwrap_or("");
    match told_version(first, file, version) {
        None => Err(of_line(file, 1, format!("tells no version of Unicode: {}", shown(first)))),
        Some((told, wanted)) if told == wanted => Ok(()),
        Some((told, wanted)) => {
            Err(of_line(file, 1, format!("tells Unicode {}, not {wanted}", shown(told))))
        }
    }
}

/// A file that was cut anywhere does not end with `# EOF` and a line end.
fn check_end(text: &str, file: &Path) -> Result<(), String> {
    let last = text.trim_end().lines().last();
    if last == Some(END) && text.ends_with('\n') {
        return Ok(());
    }
    Err(of_file(file, format!("ends too early: its last line is not `{END}`")))
}

/// The range and the property of a line; further fields belong to the property.
fn property_line(line: &str) -> Result<(Span, String), String> {
    let form = || format!("not of the form HEX ; PROPERTY: {}", shown(line));
    let (field, rest) = line.split_once(';').ok_or_else(form)?;
    let span = span(field.trim())?;
    let values: Vec<&str> = rest.split(';').map(str::trim).collect();
    if values[0].is_empty() {
        return Err(form());
    }
    Ok((span, values.join("; ")))
}

/// What was read of a property file.
#[derive(Default)]
struct Lines {
    properties: BTreeMap<String, Property>,
    /// The property of the last line that has one.
    last: String,
    ended: bool,
}

impl Lines {
    fn add(&mut self, span: Span, name: String) -> Result<(), String> {
        let property = self.properties.entry(name.clone()).or_default();
        match property.spans.last() {
            Some(&(_, last)) if span.0 <= last => {
                let name = shown(&name);
                return Err(format!("{name}: U+{:04X} is not above U+{last:04X}", span.0));
            }
            _ => property.spans.push(span),
        }
        property.uncounted += size(span);
        self.last = name;
        Ok(())
    }

    /// A total is that of the property before it, from the total before on.
    fn total(&mut self, number: &str) -> Result<(), String> {
        let told: u64 = number.parse().map_err(|_| format!("no number after `{TOTAL}`"))?;
        let name = shown(&self.last);
        let property = self.properties.get_mut(&self.last);
        let counted = property.map_or(0, |property| std::mem::take(&mut property.uncounted));
        if counted == told {
            return Ok(());
        }
        Err(format!("{name}: the total is told as {told}, but {counted} code points are counted"))
    }

    fn line(&mut self, line: &str) -> Result<(), String> {
        let plain = line.split('#').next().unwrap_or("").trim();
        if self.ended && !line.trim().is_empty() {
            Err(format!("stands after `{END}`"))
        } else if let Some(number) = line.strip_prefix(TOTAL) {
            self.total(number.trim())
        } else if plain.is_empty() {
            self.ended |= line.trim_end() == END;
            Ok(())
        } else {
            let (span, name) = property_line(plain)?;
            self.add(span, name)
        }
    }
}

impl PropertyFile {
    /// Reads a file of this version.
    pub fn read(file: &Path, version: Version) -> Result<PropertyFile, String> {
        let text = read_source(file)?;
        check_version(&text, file, version)?;
        check_end(&text, file)?;
        let mut lines = Lines::default();
        for (i, line) in text.lines().enumerate() {
            lines.line(line).map_err(|why| of_line(file, i + 1, why))?;
        }
        Ok(PropertyFile { file: file.into(), properties: lines.properties })
    }

    /// The properties that have a line.
    pub fn names(&self) -> impl Iterator<Item = &str> {
        self.properties.keys().map(String::as_str)
    }

    /// The code points of a property, which must be there with its total.
    pub fn spans(&self, name: &str) -> Result<&[Span], String> {
        match self.properties.get(name) {
            None => Err(of_file(&self.file, format!("no line for {name}"))),
            Some(property) if property.uncounted > 0 => {
                Err(of_file(&self.file, format!("no `{TOTAL}` after the lines of {name}")))
            }
            Some(property) => Ok(&property.spans),
        }
    }
}
