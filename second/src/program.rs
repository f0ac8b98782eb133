//! The condensing program: it reads i, µ, ν and a register, and prints the summary or the refusal.
//! What it prints is read back from the summary's file.

use crate::bytes::two_at;
use crate::condense::condense;
use crate::refusal::Refusal;
use crate::summary::{Summary, MOST_LENGTH};
use std::io::{self, Read, Write};

/// One byte more than the longest input that can be accepted, so that it is seen to be too long.
const MOST_READ: u64 = 16_403;

pub fn run(input: impl Read, out: &mut impl Write) -> io::Result<()> {
    let mut bytes = Vec::new();
    input.take(MOST_READ).read_to_end(&mut bytes)?;
    match condensed(&bytes) {
        Ok(summary) => print_summary(&summary, out),
        Err(refusal) => writeln!(out, "refused {}", refusal.number()),
    }
}

/// "Input under six bytes is refused 1."
fn condensed(input: &[u8]) -> Result<Summary, Refusal> {
    let Some((parameters, register)) = input.split_at_checked(6) else {
        return Err(Refusal::RegisterForm);
    };
    let [level, neighbour_cap, class_cap] = [0, 2, 4].map(|at| two_at(parameters, at));
    let file = condense(level, neighbour_cap, class_cap, register, MOST_LENGTH)?;
    Summary::read(&file)
}

/// "Fields: i, µ, ν, c, g, n; class, marks, group, count; row, edge and map fields in file order,
/// `item` with its number before its class."
fn print_summary(summary: &Summary, out: &mut impl Write) -> io::Result<()> {
    print_first_line(summary, out)?;
    for (number, class) in summary.classes.iter().enumerate() {
        let (marks, group, count) = (class.marks, class.group.0, class.count);
        writeln!(out, "class {number} {marks} {group} {count}")?;
    }
    for row in &summary.rows {
        let (class, way, group) = (row.class.0, row.way.number(), row.group.0);
        writeln!(out, "row {class} {way} {group} {}", row.count)?;
    }
    for link in &summary.class_links {
        let (source, label, target) = (link.source.0, link.label, link.target.0);
        writeln!(out, "edge {source} {label} {target}")?;
    }
    for item in summary.items() {
        writeln!(out, "item {} {}", item.0, summary.map[item.0].0)?;
    }
    Ok(())
}

fn print_first_line(summary: &Summary, out: &mut impl Write) -> io::Result<()> {
    let (i, mu, nu) = (summary.level, summary.neighbour_cap, summary.class_cap);
    let (c, g, n) = (
        summary.classes.len(),
        summary.group_count,
        summary.map.len(),
    );
    writeln!(out, "summary {i} {mu} {nu} {c} {g} {n}")
}
