//! Tables whose columns are aligned by what a terminal shows.

use crate::appearance::width;
use crate::console::{Paint, Style};
use std::io::{self, Write};

/// A column: its head, and whether it holds numbers, which stand at its right.
pub struct Column {
    pub head: &'static str,
    pub is_number: bool,
}

/// A column of words.
pub const fn words(head: &'static str) -> Column {
    Column { head, is_number: false }
}

/// A column of numbers.
pub const fn numbers(head: &'static str) -> Column {
    Column { head, is_number: true }
}

/// The columns of a terminal that a text takes.
fn width_of(text: &str) -> usize {
    text.chars().map(width).sum()
}

/// A row on one line, without blanks at its end.
fn line<const N: usize>(cells: [&str; N], columns: &[Column; N], widths: &[usize; N]) -> String {
    let mut line = String::new();
    for ((cell, column), most) in cells.iter().zip(columns).zip(widths) {
        let blanks = " ".repeat(most - width_of(cell).min(*most));
        let (before, after) = if column.is_number { (blanks.as_str(), "") } else { ("", &*blanks) };
        line.extend([before, cell, after, "  "]);
    }
    line.trim_end_matches(' ').to_string()
}

/// Prints a table.
pub fn print<const N: usize>(
    out: &mut impl Write,
    paint: Paint,
    columns: &[Column; N],
    rows: &[[String; N]],
) -> io::Result<()> {
    let mut widths = [0; N];
    for (i, column) in columns.iter().enumerate() {
        let cells = rows.iter().map(|row| width_of(&row[i]));
        widths[i] = cells.chain([width_of(column.head)]).max().unwrap_or(0);
    }
    let mut heads = [""; N];
    for (head, column) in heads.iter_mut().zip(columns) {
        *head = column.head;
    }
    writeln!(out, "{}", paint.with(Style::Bold, line(heads, columns, &widths)))?;
    for row in rows {
        let mut cells = [""; N];
        for (cell, text) in cells.iter_mut().zip(row) {
            *cell = text;
        }
        writeln!(out, "{}", line(cells, columns, &widths))?;
    }
    Ok(())
}
