// Written by bindings/rust/extract from crates/ivl_calendar/src/shown.rt.
//! What is told of all rooms, and of the bookings of one.

#[allow(unused_imports)]
use crate::rattle::prelude::*;
use crate::proved::ivl_calendar::names::comma_before;
use crate::proved::ivl_calendar::replies::{write_line, write_span};
use crate::proved::ivl_calendar::rooms::Room;
use crate::proved::intervallum::interval::Interval;
use crate::proved::ivl_lines::Escaped;
use crate::rattle::std::collections::BTreeMap;
use crate::rattle::std::io;
use crate::rattle::std::io::Write;

/// Writes the names of the rooms in their order, as a line with commas between, or `none`. Does not allocate.
pub fn write_rooms<W: Write>(writer: &mut W, rooms: &BTreeMap<String, Room>) -> io::Result<()> {
    let is_none = list_rooms(writer, rooms)?;
    if is_none {
        return write_line(writer, "none");
    }
    writer.write_all(b"\n")
}

// Writes the names of the rooms, and returns whether there is none.
fn list_rooms<W: Write>(writer: &mut W, rooms: &BTreeMap<String, Room>) -> io::Result<bool> {
    let mut is_first = true;
    for (name, _) in rooms.iter() {
        write_name(writer, is_first, name)?;
        is_first = false;
    }
    Ok(is_first)
}

// Writes the name of a room.
fn write_name<W: Write>(writer: &mut W, is_first: bool, name: &str) -> io::Result<()> {
    let comma = comma_before(is_first);
    write!(writer, "{comma}{}", Escaped(name))
}

/// Writes the bookings of a room as a line: those with a name, and then the days that are booked without one, with
/// commas between, or `free`. Does not allocate.
pub fn write_bookings<W: Write>(
    writer: &mut W,
    named: &[(Interval<i32>, String)],
    unnamed: &[Interval<i32>],
) -> io::Result<()> {
    let is_first = list_named(writer, named)?;
    let is_none = list_unnamed(writer, is_first, unnamed)?;
    if is_none {
        return write_line(writer, "free");
    }
    writer.write_all(b"\n")
}

// Writes the bookings with a name. Returns whether nothing of the answer is written yet.
fn list_named<W: Write>(writer: &mut W, named: &[(Interval<i32>, String)]) -> io::Result<bool> {
    let mut left = named;
    let mut is_first = true;
    while let Some((booking, later)) = left.split_first() {
        write_named(writer, is_first, &booking.0, booking.1.as_str())?;
        is_first = false;
        left = later;
    }
    Ok(is_first)
}

// Writes the days that are booked without a name. Returns whether nothing of the answer is written yet.
fn list_unnamed<W: Write>(
    writer: &mut W,
    is_first: bool,
    unnamed: &[Interval<i32>],
) -> io::Result<bool> {
    let mut left = unnamed;
    let mut is_first = is_first;
    while let Some((days, later)) = left.split_first() {
        write_unnamed(writer, is_first, days)?;
        is_first = false;
        left = later;
    }
    Ok(is_first)
}

// Writes a booking, and the name for which it is.
fn write_named<W: Write>(
    writer: &mut W,
    is_first: bool,
    days: &Interval<i32>,
    name: &str,
) -> io::Result<()> {
    write_comma(writer, is_first)?;
    write_span(writer, days)?;
    write!(writer, " {}", Escaped(name))
}

// Writes days that are booked without a name.
fn write_unnamed<W: Write>(writer: &mut W, is_first: bool, days: &Interval<i32>) -> io::Result<()> {
    write_comma(writer, is_first)?;
    write_span(writer, days)
}

fn write_comma<W: Write>(writer: &mut W, is_first: bool) -> io::Result<()> {
    let comma = comma_before(is_first);
    write!(writer, "{comma}")
}
