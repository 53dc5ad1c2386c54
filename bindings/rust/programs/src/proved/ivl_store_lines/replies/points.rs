// Written by bindings/rust/extract from crates/ivl_store_lines/src/replies/points.rt.
//! The lines of solutions.

#[allow(unused_imports)]
use crate::rattle::prelude::*;
use crate::proved::ivl_lines::Escaped;
use crate::proved::ivl_search::search::{Best, End, Found};
use crate::rattle::std::io;
use crate::rattle::std::io::Write;

/// Writes each solution, one per line, and then how their search ended.
pub fn write_solutions<W: Write>(
    writer: &mut W,
    names: &[String],
    found: &Found<i64>,
) -> io::Result<()> {
    write_points(writer, names, &found.points)?;
    write_end(writer, found.points.len(), found.end)
}

/// Writes the number of solutions, or that there are so many at least, and then how their search ended.
pub fn write_count<W: Write>(writer: &mut W, count: usize, end: End) -> io::Result<()> {
    write_number(writer, count, end)?;
    write_end(writer, count, end)
}

fn write_number<W: Write>(writer: &mut W, count: usize, end: End) -> io::Result<()> {
    match end {
        End::All => writeln!(writer, "count {count}"),
        End::Solutions => writeln!(writer, "count at least {count}"),
        End::Nodes => writeln!(writer, "count at least {count}"),
    }
}

/// Writes the best solution, if one was found, and then how the search ended.
pub fn write_best<W: Write>(writer: &mut W, names: &[String], best: &Best<i64>) -> io::Result<()> {
    match &best.point {
        Some(point) => {
            write_point(writer, names, point)?;
            write_end(writer, 1, best.end)
        }
        None => write_end(writer, 0, best.end),
    }
}

fn write_points<W: Write>(writer: &mut W, names: &[String], points: &[Vec<i64>]) -> io::Result<()> {
    for point in points {
        write_point(writer, names, point)?;
    }
    Ok(())
}

fn write_point<W: Write>(writer: &mut W, names: &[String], numbers: &[i64]) -> io::Result<()> {
    let (mut names, mut numbers, mut separator) = (names, numbers, "");
    while let Some((name, number, other_names, other_numbers)) = first_entry(names, numbers) {
        write_entry(writer, separator, name, number)?;
        names = other_names;
        numbers = other_numbers;
        separator = " ";
    }
    writer.write_all(b"\n")
}

fn write_entry<W: Write>(
    writer: &mut W,
    separator: &str,
    name: &str,
    number: &i64,
) -> io::Result<()> {
    write!(writer, "{separator}{} {number}", Escaped(name))
}

/// The name and the number of the first variable, and those of the others.
fn first_entry<'a>(
    names: &'a [String],
    numbers: &'a [i64],
) -> Option<(&'a str, &'a i64, &'a [String], &'a [i64])> {
    let [name, other_names @ ..] = names else {
        return None;
    };
    let [number, other_numbers @ ..] = numbers else {
        return None;
    };
    Some((name.as_str(), number, other_names, other_numbers))
}

fn write_end<W: Write>(writer: &mut W, count: usize, end: End) -> io::Result<()> {
    match end {
        End::All if count == 0 => writer.write_all(b"no solution\n"),
        End::All => writer.write_all(b"ok\n"),
        End::Solutions => writer.write_all(b"more possible\n"),
        End::Nodes => writer.write_all(b"unfinished\n"),
    }
}
