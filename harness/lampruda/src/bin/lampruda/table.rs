//! Tables for people.

use crate::console::{Colour, Ink};

/// Rows below a heading, in columns: so many of the first are set to the left, and all others to the right.
pub fn table(ink: Ink, left: usize, heading: Vec<String>, rows: &[Vec<String>]) -> String {
    let width = |column: usize| rows.iter().chain([&heading]).map(|row| row[column].len()).max().unwrap_or(0);
    let widths: Vec<usize> = (0..heading.len()).map(width).collect();
    let line = |row: &Vec<String>| {
        let cells = row.iter().zip(&widths).enumerate().map(|(column, (cell, &width))| {
            if column < left {
                format!("{cell:<width$}")
            } else {
                format!("{cell:>width$}")
            }
        });
        cells.collect::<Vec<_>>().join("  ")
    };
    let heading = ink.paint(Colour::Dim, &line(&heading));
    rows.iter().fold(format!("{heading}\n"), |table, row| table + &line(row) + "\n")
}
