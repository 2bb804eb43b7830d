//! The table, as it stands in docs/SPEED.md.

use super::line::Line;
use super::measure::Row;
use super::{PORT, SUBJECTS};

/// A table of what was measured: each number, its ratio to the port's, and the verdict on the line, given its limit.
pub fn rows(unit: &str, measured: &[Row], verdict: fn(u32, &Row) -> String) -> String {
    let names: String = SUBJECTS.iter().map(|s| format!(" {} |", s.name)).collect();
    let rule = "---|".repeat(SUBJECTS.len() + 2);
    let rows: String = Line::ALL
        .iter()
        .zip(measured)
        .map(|((line, limit), row)| {
            format!("| {line} |{} {} |\n", cells(row), verdict(*limit, row))
        })
        .collect();
    format!("\n| {unit} of a call |{names} verdict |\n|{rule}\n{rows}")
}

fn cells(row: &Row) -> String {
    let port = row[PORT].expect("the port has every line");
    let cell = |(subject, number): (usize, &Option<f64>)| match number {
        Some(number) if subject == PORT => format!(" {number:.1} |"),
        Some(number) => format!(" {number:.1} ({:.2}) |", number / port),
        None => " - |".into(),
    };
    row.iter().enumerate().map(cell).collect()
}
