//! What changed, as a page that stands alone.

use super::characters;
use super::comparison::{points, Comparison, Side, FOLLOWS, FOLLOWS_NOT};
use super::picture::picture;
use super::plain::{entries_in_words, role_name, runs_in_words};
use super::summary::{self, ChangeKind};
use crate::text::{code_point, is_noncharacter, thousands, visible};
use luffinarc::{ChangedEntry, Class, Run};
use std::fmt::Write;

const STYLE: &str = include_str!("page.css");

/// How the picture is read.
const LEGEND: &str = include_str!("legend.html");

/// A text in HTML, also between quotes. What HTML can't hold is U+FFFD.
pub fn escape(text: &str) -> String {
    let mut escaped = String::new();
    for c in text.chars() {
        match c {
            '&' => escaped.push_str("&amp;"),
            '<' => escaped.push_str("&lt;"),
            '>' => escaped.push_str("&gt;"),
            '"' => escaped.push_str("&quot;"),
            '\'' => escaped.push_str("&#39;"),
            c if c.is_control() || is_noncharacter(c.into()) => escaped.push('\u{FFFD}'),
            c => escaped.push(c),
        }
    }
    escaped
}

/// A change of class in words.
pub fn arrow(older: Class, newer: Class) -> String {
    format!("{older} → {newer}")
}

/// The class of HTML that a kind of change has.
pub fn kind_class(older: Class, newer: Class) -> String {
    format!("k{}{}", older.number(), newer.number())
}

/// Code points from a first to a last.
pub fn span(first: u32, last: u32) -> String {
    if first == last {
        code_point(first)
    } else {
        format!("{} to {}", code_point(first), code_point(last))
    }
}

/// The style of the kinds that occur: the colour of the two classes, and that a kind may be hidden.
fn kind_styles(kinds: &[ChangeKind]) -> String {
    let mut style = String::new();
    for kind in kinds {
        let (older, newer) = (kind.older.number(), kind.newer.number());
        let (low, high) = (older.min(newer), older.max(newer));
        let class = kind_class(kind.older, kind.newer);
        let _ = writeln!(style, ".{class}{{--kind:var(--c{low}{high})}}");
        let hidden = format!("body:has(#show-{class}:not(:checked))");
        let _ = writeln!(style, "{hidden} :is(.list,svg) .{class}{{display:none}}");
    }
    style
}

/// The title: both versions.
fn title(comparison: &Comparison) -> String {
    format!("Unicode {} to {}", comparison.older.version, comparison.newer.version)
}

/// Whether the newer may follow the older.
fn verdict(comparison: &Comparison) -> String {
    match &comparison.refusal {
        None => format!("<p class=\"verdict\"><strong>✓ Yes:</strong> {FOLLOWS}.</p>\n"),
        Some(refusal) => {
            let reason = escape(&comparison.reason(refusal));
            format!("<p class=\"verdict no\"><strong>✗ No:</strong> {FOLLOWS_NOT}: <bdi>{reason}</bdi>.</p>\n")
        }
    }
}

/// The two images.
fn sides(comparison: &Comparison) -> String {
    let side = |name: &str, side: &Side| {
        let (file, words) = (escape(&visible(&side.file)), &side.words);
        format!("<dt>{name}</dt><dd><bdi>{file}</bdi><br>{words}</dd>\n")
    };
    let (older, newer) = (side("older", &comparison.older), side("newer", &comparison.newer));
    format!("<section>\n<h2>Images</h2>\n<dl>\n{older}{newer}</dl>\n</section>\n")
}

fn summary_row(kind: &ChangeKind) -> String {
    let (class, name) = (kind_class(kind.older, kind.newer), arrow(kind.older, kind.newer));
    let (runs, points) = (thousands(kind.runs), thousands(kind.code_points));
    let (no, verdict) = (if kind.permitted { "" } else { " class=\"no\"" }, kind.verdict());
    format!(
        "<tr class=\"{class}\"><td><label><input type=\"checkbox\" id=\"show-{class}\" checked> \
         <i></i>{name}</label></td><td>{runs}</td><td>{points}</td><td{no}>{verdict}</td></tr>\n"
    )
}

/// The rows of a table's head or foot.
fn cells(tag: &str, texts: &[&str]) -> String {
    let cell = |text: &&str| format!("<{tag}>{text}</{tag}>");
    format!("<tr>{}</tr>", texts.iter().map(cell).collect::<String>())
}

/// The summary by kinds.
fn summary(comparison: &Comparison) -> String {
    let table = match (comparison.kinds.is_empty(), comparison.changes.entries.is_empty()) {
        (true, true) => "<p>Nothing changed: classes and profiles are the same.</p>".to_string(),
        (true, false) => "<p>No code point has another class.</p>".to_string(),
        _ => {
            let rows: String = comparison.kinds.iter().map(summary_row).collect();
            let (runs, points) = summary::total(&comparison.kinds);
            let head = cells("th", &["change of class", "runs", "code points", "pair check"]);
            let foot = cells("td", &["all", &thousands(runs), &thousands(points), ""]);
            format!(
                "<table class=\"summary\">\n<thead>{head}</thead>\n<tbody>\n{rows}</tbody>\n\
                 <tfoot>{foot}</tfoot>\n</table>"
            )
        }
    };
    format!("<section>\n<h2>Summary</h2>\n{table}\n</section>\n")
}

fn run_row(run: &Run, permitted: bool) -> String {
    let wrap = |glyph: &str| format!("<bdi>{}</bdi>", escape(glyph));
    let (class, change) = (kind_class(run.older, run.newer), arrow(run.older, run.newer));
    let forbidden = if permitted { "" } else { " <b>forbidden</b>" };
    let (code_points, count) = (span(run.first, run.last), thousands(points(run)));
    format!(
        "<tr id=\"u{:X}\" class=\"{class}\"><td>{code_points}</td><td>{count}</td>\
         <td><i></i>{change}{forbidden}</td><td>{}</td></tr>\n",
        run.first,
        characters::of_run(run, wrap),
    )
}

/// The rows of one table. A long list has several, so that a browser lays out only what is looked at.
const PART: usize = 256;

/// A list with its title, its columns' heads and its rows.
fn list(class: &str, title: &str, heads: [&str; 4], rows: &[String]) -> String {
    if rows.is_empty() {
        return String::new();
    }
    let head = cells("th", &heads);
    let mut html = format!("<section>\n<h2>{title}</h2>\n");
    for part in rows.chunks(PART) {
        let table = format!("<table class=\"list {class}\">\n<thead>{head}</thead>\n<tbody>\n");
        let _ =
            write!(html, "<div class=\"part\">{table}{}</tbody>\n</table></div>\n", part.concat());
    }
    html + "</section>\n"
}

/// The list of runs.
fn runs(comparison: &Comparison) -> String {
    let runs = &comparison.changes.runs;
    let rows: Vec<_> = runs.iter().map(|run| run_row(run, comparison.permits(run))).collect();
    let heads = ["code points", "count", "change of class", "characters"];
    list("runs", &runs_in_words(runs), heads, &rows)
}

fn entry_row(entry: &ChangedEntry) -> String {
    let point = entry.code_point;
    format!(
        "<tr id=\"e{point:X}\"><td>{}</td><td><bdi>{}</bdi></td><td>{}</td><td>{}</td></tr>\n",
        code_point(point),
        escape(&characters::of_point(point)),
        role_name(entry.older),
        role_name(entry.newer),
    )
}

/// The list of profile entries.
fn entries(comparison: &Comparison) -> String {
    let entries = &comparison.changes.entries;
    let rows: Vec<_> = entries.iter().map(entry_row).collect();
    let heads = ["code point", "character", "older role", "newer role"];
    list("entries", &entries_in_words(entries), heads, &rows)
}

/// The page.
pub fn page(comparison: &Comparison) -> String {
    let title = title(comparison);
    let legend = if comparison.is_empty() { "" } else { LEGEND };
    [
        "<!DOCTYPE html>\n<html lang=\"en\">\n<head>\n<meta charset=\"utf-8\">\n",
        "<meta name=\"viewport\" content=\"width=device-width, initial-scale=1\">\n",
        &format!("<title>{title}: what changed</title>\n<style>\n{STYLE}"),
        &kind_styles(&comparison.kinds),
        &format!("</style>\n</head>\n<body>\n<header>\n<h1>{title}</h1>\n"),
        &verdict(comparison),
        "</header>\n<main>\n<div class=\"top\">\n",
        &sides(comparison),
        &summary(comparison),
        &format!("</div>\n<section>\n<h2>The code space</h2>\n{legend}"),
        &picture(comparison),
        "</section>\n",
        &runs(comparison),
        &entries(comparison),
        "</main>\n</body>\n</html>\n",
    ]
    .concat()
}
