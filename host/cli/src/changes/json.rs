//! What changed, as one object of JSON.

use super::comparison::{points, Comparison, Side};
use super::summary::ChangeKind;
use crate::refusal;
use crate::text::{code_point, json, object};
use luffinarc::{ChangedEntry, Role, Run};
use std::io::{self, Write};

/// A list with a line for each item.
fn list(items: impl Iterator<Item = String>) -> String {
    let items: Vec<String> = items.collect();
    if items.is_empty() {
        "[]".to_string()
    } else {
        format!("[\n{}\n]", items.join(",\n"))
    }
}

fn side(side: &Side) -> String {
    object(&[
        ("file", json(&side.file)),
        ("version", json(&side.version.to_string())),
        ("ranges", side.ranges.len().to_string()),
        ("entries", side.entries.to_string()),
    ])
}

fn run(run: &Run, permitted: bool) -> String {
    object(&[
        ("first", run.first.to_string()),
        ("last", run.last.to_string()),
        ("first_hex", json(&code_point(run.first))),
        ("last_hex", json(&code_point(run.last))),
        ("code_points", points(run).to_string()),
        ("older", json(run.older.name())),
        ("newer", json(run.newer.name())),
        ("permitted", permitted.to_string()),
    ])
}

fn role(role: Option<Role>) -> String {
    role.map_or("null".to_string(), |role| json(role.name()))
}

fn entry(entry: &ChangedEntry) -> String {
    object(&[
        ("code_point", entry.code_point.to_string()),
        ("hex", json(&code_point(entry.code_point))),
        ("older", role(entry.older)),
        ("newer", role(entry.newer)),
    ])
}

fn kind(kind: &ChangeKind) -> String {
    object(&[
        ("older", json(kind.older.name())),
        ("newer", json(kind.newer.name())),
        ("runs", kind.runs.to_string()),
        ("code_points", kind.code_points.to_string()),
        ("permitted", kind.permitted.to_string()),
    ])
}

/// Prints what changed: a line for each part, each run and each entry.
pub fn print(comparison: &Comparison, out: &mut impl Write) -> io::Result<()> {
    let changes = &comparison.changes;
    let runs = changes.runs.iter().map(|changed| run(changed, comparison.permits(changed)));
    writeln!(out, "{{\"older\":{},", side(&comparison.older))?;
    writeln!(out, "\"newer\":{},", side(&comparison.newer))?;
    writeln!(out, "\"runs\":{},", list(runs))?;
    writeln!(out, "\"entries\":{},", list(changes.entries.iter().map(entry)))?;
    writeln!(out, "\"summary\":{},", list(comparison.kinds.iter().map(kind)))?;
    writeln!(out, "\"may_follow\":{},", comparison.refusal.is_none())?;
    let refused = comparison.refusal.as_ref().map_or("null".to_string(), refusal::json);
    writeln!(out, "\"refusal\":{refused}}}")
}
