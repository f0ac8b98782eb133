//! What was measured, as tables: ratios first, then times.

use crate::cells::CELLS;
use crate::timing::Times;

/// A shape's name and its cells.
pub type Row = (&'static str, Vec<Times>);

pub fn print(rows: &[Row]) {
    table("ratio", rows, Times::ratio);
    worst(rows);
    table("plain Rust, µs", rows, |times| times.plain);
    table("proved, µs", rows, |times| times.proved);
}

fn table(what: &str, rows: &[Row], shown: impl Fn(&Times) -> f64) {
    println!("\n| {what} | {} |", CELLS.join(" | "));
    println!("|---|{}", "---|".repeat(CELLS.len()));
    for (name, cells) in rows {
        let cells: Vec<String> = cells.iter().map(|times| short(shown(times))).collect();
        println!("| {name} | {} |", cells.join(" | "));
    }
}

fn short(number: f64) -> String {
    match number {
        ..10.0 => format!("{number:.2}"),
        ..100.0 => format!("{number:.1}"),
        _ => format!("{number:.0}"),
    }
}

/// The geometric mean and the three greatest ratios.
fn worst(rows: &[Row]) {
    let cell = |name: &'static str| {
        move |(times, cell): (&Times, &&str)| (times.ratio(), format!("{name}, {cell}"))
    };
    let mut cells: Vec<(f64, String)> = vec![];
    for (name, times) in rows {
        cells.extend(times.iter().zip(&CELLS).map(cell(name)));
    }
    cells.sort_by(|a, b| b.0.total_cmp(&a.0));
    let logs: f64 = cells.iter().map(|(ratio, _)| ratio.ln()).sum();
    let above = cells.iter().filter(|(ratio, _)| *ratio > 5.0).count();
    let mean = (logs / cells.len() as f64).exp();
    println!(
        "\n{} cells, geometric mean {mean:.2}, above 5: {above}",
        cells.len()
    );
    let worst: Vec<String> = cells[..3]
        .iter()
        .map(|(ratio, cell)| format!("{cell} ({ratio:.2})"))
        .collect();
    println!("the three worst: {}", worst.join("; "));
}
