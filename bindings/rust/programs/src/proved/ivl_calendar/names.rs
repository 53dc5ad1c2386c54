// Written by bindings/rust/extract from crates/ivl_calendar/src/names.rt.
//! What is told of the names for which rooms are booked.

#[allow(unused_imports)]
use crate::rattle::prelude::*;
use crate::proved::ivl_calendar::replies::{write_line, write_span};
use crate::proved::ivl_calendar::rooms::Room;
use crate::proved::intervallum::interval::Interval;
use crate::proved::ivl_lines::Escaped;
use crate::rattle::std::collections::BTreeMap;
use crate::rattle::std::io;
use crate::rattle::std::io::Write;

/// Writes what is in the way of a booking of days: the first booking with a name, or `taken`.
pub fn write_taken<W: Write>(writer: &mut W, room: &Room, days: &Interval<i32>) -> io::Result<()> {
    let Some(met) = room.first_named(days) else {
        return write_line(writer, "taken");
    };
    write!(writer, "taken by {} ", Escaped(met.1))?;
    write_span(writer, &met.0)?;
    writer.write_all(b"\n")
}

/// Writes who has booked a room on a day.
pub fn write_who<W: Write>(writer: &mut W, room: &Room, day: i32) -> io::Result<()> {
    match room.name_on(day) {
        Some(name) => writeln!(writer, "{}", Escaped(name)),
        None if room.is_booked_without_name(day) => write_line(writer, "booked without a name"),
        None => write_line(writer, "free"),
    }
}

/// Writes the days that are booked for a name, room by room in the order of their names, as a line: each run of days
/// after the name of the room, with commas between, or `none`.
///
/// Compares the name with that of each booking. Does not allocate.
pub fn write_days_of<W: Write>(
    writer: &mut W,
    rooms: &BTreeMap<String, Room>,
    who: &str,
) -> io::Result<()> {
    let is_none = list_days(writer, rooms, who)?;
    if is_none {
        return write_line(writer, "none");
    }
    writer.write_all(b"\n")
}

// Writes the days of a name in each room, and returns whether there are none.
fn list_days<W: Write>(
    writer: &mut W,
    rooms: &BTreeMap<String, Room>,
    who: &str,
) -> io::Result<bool> {
    let mut is_first = true;
    for (name, room) in rooms.iter() {
        is_first = write_days_in(writer, is_first, name, room.named(), who)?;
    }
    Ok(is_first)
}

// Writes the days of a name in a room. Returns whether nothing of the answer is written yet.
fn write_days_in<W: Write>(
    writer: &mut W,
    is_first: bool,
    name: &str,
    bookings: &[(Interval<i32>, String)],
    who: &str,
) -> io::Result<bool> {
    let mut left = bookings;
    let mut is_first = is_first;
    while let Some((booking, later)) = left.split_first() {
        is_first = write_if_for(writer, is_first, name, booking, who)?;
        left = later;
    }
    Ok(is_first)
}

// Writes the days of a booking if it is for a name. Returns whether nothing of the answer is written yet.
fn write_if_for<W: Write>(
    writer: &mut W,
    is_first: bool,
    name: &str,
    booking: &(Interval<i32>, String),
    who: &str,
) -> io::Result<bool> {
    if is_for(booking, who) {
        let comma = comma_before(is_first);
        write!(writer, "{comma}{} ", Escaped(name))?;
        write_span(writer, &booking.0)?;
        Ok(false)
    } else {
        Ok(is_first)
    }
}

fn is_for(booking: &(Interval<i32>, String), who: &str) -> bool {
    booking.1.as_str() == who
}

/// Returns what stands before a part of an answer: a comma, unless it is the first.
pub fn comma_before(is_first: bool) -> &'static str {
    if is_first { "" } else { ", " }
}
