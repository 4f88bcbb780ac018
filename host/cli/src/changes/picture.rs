//! The picture of the code space: a drawing for each plane.

use super::cells::{column, Layout, CELL, LEFT, TOP, WIDTH};
use super::comparison::Comparison;
use super::labels::{labels, planes_in_words, title};
use super::page::{arrow, kind_class, span};
use super::plain::role_name;
use crate::text::{code_point, counted, thousands};
use luffinarc::{ChangedEntry, Range, Run};
use std::collections::{BTreeMap, BTreeSet};
use std::fmt::Write;

const PLANES: u32 = 17;

/// The most changes that the tooltip of a cell names.
const NAMED: usize = 12;

/// The changes in a cell of 256 code points.
#[derive(Default)]
struct Cell<'a> {
    runs: Vec<&'a Run>,
    entries: Vec<&'a ChangedEntry>,
}

/// What is drawn.
struct Map<'a> {
    comparison: &'a Comparison,
    /// The rows of 4,096 code points in which one is assigned or changed.
    used: [bool; 16 * PLANES as usize],
    /// What is assigned in the newer image.
    assigned: Vec<(u32, u32)>,
    cells: BTreeMap<u32, Cell<'a>>,
}

/// The code points of ranges, whatever their class.
fn spans(ranges: &[Range]) -> Vec<(u32, u32)> {
    let mut spans: Vec<(u32, u32)> = Vec::new();
    for range in ranges {
        match spans.last_mut() {
            Some(before) if before.1 + 1 == range.first => before.1 = range.last,
            _ => spans.push((range.first, range.last)),
        }
    }
    spans
}

impl<'a> Map<'a> {
    fn new(comparison: &'a Comparison) -> Map<'a> {
        let mut used = [false; 16 * PLANES as usize];
        for range in comparison.older.ranges.iter().chain(&comparison.newer.ranges) {
            used[(range.first >> 12) as usize..=(range.last >> 12) as usize].fill(true);
        }
        let mut cells: BTreeMap<u32, Cell> = BTreeMap::new();
        for run in &comparison.changes.runs {
            for cell in run.first >> 8..=run.last >> 8 {
                cells.entry(cell).or_default().runs.push(run);
            }
        }
        for entry in &comparison.changes.entries {
            used[(entry.code_point >> 12) as usize] = true;
            cells.entry(entry.code_point >> 8).or_default().entries.push(entry);
        }
        Map { comparison, used, assigned: spans(&comparison.newer.ranges), cells }
    }

    fn layout(&self, plane: u32) -> Layout {
        Layout::new(plane, |row| self.used[row as usize])
    }

    fn is_changed(&self, plane: u32) -> bool {
        self.cells.range(plane << 8..(plane + 1) << 8).next().is_some()
    }

    /// The cells of a plane, what is assigned in it, and the surrogates.
    fn ground(&self, layout: &Layout) -> String {
        let mut svg = String::new();
        for (_, top) in layout.rows() {
            let _ = write!(svg, "<use href=\"#cells\" y=\"{top}\"/>");
        }
        let assigned = layout.path(self.assigned.iter().copied());
        let surrogates = layout.path([(0xD800, 0xDFFF)].into_iter());
        for (class, path) in [("assigned", assigned), ("surrogates", surrogates)] {
            if !path.is_empty() {
                let _ = write!(svg, "<path class=\"{class}\" d=\"{path}\"/>");
            }
        }
        svg
    }

    /// The changed code points of a plane, a path for each kind, those that are forbidden above the others.
    fn changed(&self, layout: &Layout) -> String {
        let mut svg = String::new();
        let kinds = &self.comparison.kinds;
        let permitted = kinds.iter().filter(|kind| kind.permitted);
        for kind in permitted.chain(kinds.iter().filter(|kind| !kind.permitted)) {
            let runs = self.comparison.changes.runs.iter().filter(|run| kind.is_of(run));
            let path = layout.path(runs.map(|run| (run.first, run.last)));
            if !path.is_empty() {
                let class = kind_class(kind.older, kind.newer);
                let _ = write!(svg, "<path class=\"change {class}\" d=\"{path}\"/>");
            }
        }
        for entry in &self.comparison.changes.entries {
            if let Some((x, y)) = layout.corner(entry.code_point >> 8) {
                let (x, y) = (x + entry.code_point % 16, y + entry.code_point / 16 % 16);
                let _ = write!(svg, "<circle cx=\"{x}.5\" cy=\"{y}.5\" r=\"1.6\"/>");
            }
        }
        svg
    }

    /// The class of a frame: the kind where all changes are of one, and whether one is forbidden.
    fn frame_class(&self, cell: &Cell) -> String {
        let classes: BTreeSet<String> =
            cell.runs.iter().map(|run| kind_class(run.older, run.newer)).collect();
        let mut class = "frame".to_string();
        if let (1, true, Some(kind)) =
            (classes.len(), cell.entries.is_empty(), classes.iter().next())
        {
            let _ = write!(class, " {kind}");
        }
        if cell.runs.iter().any(|run| !self.comparison.permits(run)) {
            class.push_str(" no");
        }
        class
    }

    /// The frames of a plane's changed cells, each a link to its first change, with a tooltip.
    fn frames(&self, plane: u32, layout: &Layout) -> String {
        let mut svg = String::new();
        for (&number, cell) in self.cells.range(plane << 8..(plane + 1) << 8) {
            let target = match (cell.runs.first(), cell.entries.first()) {
                (Some(run), _) => format!("u{:X}", run.first),
                (None, Some(entry)) => format!("e{:X}", entry.code_point),
                (None, None) => continue,
            };
            if let Some((x, y)) = layout.corner(number) {
                let (class, tip) = (self.frame_class(cell), tooltip(number, cell));
                let _ = write!(
                    svg,
                    "<a href=\"#{target}\" tabindex=\"-1\"><title>{tip}</title>\
                     <rect class=\"{class}\" x=\"{x}\" y=\"{y}\" width=\"{CELL}\" height=\"{CELL}\"/></a>"
                );
            }
        }
        svg
    }

    /// What changed in a plane, in words: kinds with their code points, and entries.
    fn in_words(&self, plane: u32, layout: &Layout) -> String {
        let mut words = String::new();
        for kind in &self.comparison.kinds {
            let runs = self.comparison.changes.runs.iter().filter(|run| kind.is_of(run));
            let parts = runs.filter_map(|run| layout.clip((run.first, run.last)));
            let points: u32 = parts.map(|(first, last)| last - first + 1).sum();
            if points > 0 {
                let class = kind_class(kind.older, kind.newer);
                let (name, points) = (arrow(kind.older, kind.newer), thousands(points as usize));
                let _ = write!(words, "<li class=\"{class}\"><i></i>{name}: {points}</li>");
            }
        }
        let entries = &self.comparison.changes.entries;
        let entries = entries.iter().filter(|entry| entry.code_point >> 16 == plane).count();
        if entries > 0 {
            let entries = counted(entries, "changed profile entry", "changed profile entries");
            let _ = write!(words, "<li>{entries}</li>");
        }
        words
    }

    /// A plane with changes.
    fn large(&self, plane: u32) -> String {
        let layout = self.layout(plane);
        let (height, title) = (layout.height, title(plane));
        format!(
            "<figure>\n<figcaption><h3>{title}</h3><ul class=\"kinds\">{}</ul></figcaption>\n\
             <svg viewBox=\"0 0 {WIDTH} {height}\" role=\"group\" aria-label=\"{title}\">{}{}{}{}</svg>\n\
             </figure>\n",
            self.in_words(plane, &layout),
            labels(&layout),
            self.ground(&layout),
            self.changed(&layout),
            self.frames(plane, &layout),
        )
    }

    /// A plane without changes, drawn small.
    fn small(&self, plane: u32) -> String {
        let layout = self.layout(plane);
        let (width, height) = (WIDTH - LEFT, layout.height - TOP);
        let (title, ground) = (title(plane), self.ground(&layout));
        format!(
            "<figure>\n<svg viewBox=\"{LEFT} {TOP} {width} {height}\" role=\"img\" \
             aria-label=\"{title}\">{ground}</svg>\n<figcaption>{title}</figcaption>\n</figure>\n"
        )
    }
}

/// What a cell's tooltip says.
fn tooltip(number: u32, cell: &Cell) -> String {
    let run =
        |run: &&Run| format!("\n{}: {}", span(run.first, run.last), arrow(run.older, run.newer));
    let entry = |entry: &&ChangedEntry| {
        let (older, newer) = (role_name(entry.older), role_name(entry.newer));
        format!("\n{}: role {older} → {newer}", code_point(entry.code_point))
    };
    let mut text = span(number << 8, number << 8 | 0xFF);
    text.extend(cell.runs.iter().map(run).chain(cell.entries.iter().map(entry)).take(NAMED));
    let all = cell.runs.len() + cell.entries.len();
    if all > NAMED {
        let _ = write!(text, "\nand {} more, in the lists below", all - NAMED);
    }
    text
}

/// The cells of a row, which the drawings use.
fn definitions() -> String {
    let cell = |number| format!("M{} 0h{CELL}v{CELL}h-{CELL}z", column(number));
    let cells: String = (0..16).map(cell).collect();
    format!(
        "<svg class=\"definitions\" aria-hidden=\"true\"><defs><path id=\"cells\" d=\"{cells}\"/>\
         <pattern id=\"hatch\" width=\"4\" height=\"4\" patternUnits=\"userSpaceOnUse\">\
         <path d=\"M0 4L4 0\"/></pattern></defs></svg>\n"
    )
}

/// The picture: planes with changes large, others small, and which are not drawn.
pub fn picture(comparison: &Comparison) -> String {
    let map = Map::new(comparison);
    let is_used = |&plane: &u32| map.used[16 * plane as usize..][..16].contains(&true);
    let (used, empty): (Vec<u32>, Vec<u32>) = (0..PLANES).partition(is_used);
    let (changed, same): (Vec<u32>, Vec<u32>) =
        used.into_iter().partition(|&plane| map.is_changed(plane));
    let mut html = definitions();
    let large: String = changed.into_iter().map(|plane| map.large(plane)).collect();
    if !large.is_empty() {
        let _ = write!(html, "<div class=\"planes\">\n{large}</div>\n");
    }
    if !same.is_empty() {
        let small: String = same.into_iter().map(|plane| map.small(plane)).collect();
        let _ = write!(
            html,
            "<h3>Planes without a change</h3>\n<div class=\"small\">\n{small}</div>\n"
        );
    }
    if !empty.is_empty() {
        let planes = if empty.len() == 1 { "plane" } else { "planes" };
        let numbers = planes_in_words(&empty);
        let _ = writeln!(
            html,
            "<p>Not drawn, since neither image assigns a code point there: {planes} {numbers}.</p>"
        );
    }
    html
}
