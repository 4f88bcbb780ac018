//! What changed, as lines of text.

use super::characters;
use super::comparison::{points, Comparison, FOLLOWS, FOLLOWS_NOT};
use super::summary;
use super::table::{self, numbers, words, Column};
use crate::console::{Console, Stop, Style};
use crate::text::{code_point, counted, thousands, visible};
use luffinarc::{ChangedEntry, Role, Run};
use std::io::Write;

const RUN_COLUMNS: [Column; 6] = [
    words("first"),
    words("last"),
    numbers("code points"),
    words("older class"),
    words("newer class"),
    words("characters"),
];

const ENTRY_COLUMNS: [Column; 4] =
    [words("code point"), words("character"), words("older role"), words("newer role")];

const KIND_COLUMNS: [Column; 5] = [
    words("older class"),
    words("newer class"),
    numbers("runs"),
    numbers("code points"),
    words("pair check"),
];

fn run_row(run: &Run) -> [String; 6] {
    [
        code_point(run.first),
        code_point(run.last),
        thousands(points(run)),
        run.older.to_string(),
        run.newer.to_string(),
        characters::of_run(run, str::to_string),
    ]
}

/// The name of a role, `-` for none.
pub fn role_name(role: Option<Role>) -> &'static str {
    role.map_or("-", Role::name)
}

fn entry_row(entry: &ChangedEntry) -> [String; 4] {
    [
        code_point(entry.code_point),
        characters::of_point(entry.code_point),
        role_name(entry.older).to_string(),
        role_name(entry.newer).to_string(),
    ]
}

/// Prints a title and a table, where it has rows.
fn print_table<const N: usize>(
    console: &mut Console,
    title: &str,
    columns: &[Column; N],
    rows: &[[String; N]],
) -> Result<(), Stop> {
    if rows.is_empty() {
        return Ok(());
    }
    writeln!(console.out, "\n{}", console.paint.with(Style::Bold, title))?;
    Ok(table::print(&mut console.out, console.paint, columns, rows)?)
}

/// The runs and the entries in words, as titles and on the page.
pub fn runs_in_words(runs: &[Run]) -> String {
    counted(
        runs.len(),
        "run of code points with another class",
        "runs of code points with another class",
    )
}

pub fn entries_in_words(entries: &[ChangedEntry]) -> String {
    counted(entries.len(), "profile entry with another role", "profile entries with another role")
}

/// The rows of the summary: a kind each, and all together.
fn summary_rows(comparison: &Comparison) -> Vec<[String; 5]> {
    let mut rows = Vec::new();
    for kind in &comparison.kinds {
        let classes = [kind.older, kind.newer].map(|class| class.to_string());
        let [older, newer] = classes;
        let (runs, points) = (thousands(kind.runs), thousands(kind.code_points));
        rows.push([older, newer, runs, points, kind.verdict().to_string()]);
    }
    if rows.len() > 1 {
        let (runs, points) = summary::total(&comparison.kinds);
        let all = ["all".to_string(), String::new(), thousands(runs), thousands(points)];
        let [all, none, runs, points] = all;
        rows.push([all, none, runs, points, String::new()]);
    }
    rows
}

/// Prints whether the newer may follow the older.
fn print_verdict(comparison: &Comparison, console: &mut Console) -> Result<(), Stop> {
    let line = match &comparison.refusal {
        None => console.paint.with(Style::Green, format!("yes: {FOLLOWS}")),
        Some(refusal) => {
            let reason = comparison.reason(refusal);
            console.paint.with(Style::Red, format!("no: {FOLLOWS_NOT}: {reason}"))
        }
    };
    Ok(writeln!(console.out, "\n{line}")?)
}

/// Prints what changed.
pub fn print(comparison: &Comparison, console: &mut Console) -> Result<(), Stop> {
    for (name, side) in [("older", &comparison.older), ("newer", &comparison.newer)] {
        let name = console.paint.with(Style::Bold, name);
        writeln!(console.out, "{name}: {}: {}", visible(&side.file), side.words)?;
    }
    let (runs, entries) = (&comparison.changes.runs, &comparison.changes.entries);
    if comparison.is_empty() {
        writeln!(console.out, "\nnothing changed: classes and profiles are the same")?;
    }
    let run_rows: Vec<_> = runs.iter().map(run_row).collect();
    print_table(console, &runs_in_words(runs), &RUN_COLUMNS, &run_rows)?;
    let entry_rows: Vec<_> = entries.iter().map(entry_row).collect();
    print_table(console, &entries_in_words(entries), &ENTRY_COLUMNS, &entry_rows)?;
    print_table(console, "summary", &KIND_COLUMNS, &summary_rows(comparison))?;
    print_verdict(comparison, console)
}
