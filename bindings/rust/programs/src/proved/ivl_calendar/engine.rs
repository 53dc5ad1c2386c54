// Written by bindings/rust/extract from crates/ivl_calendar/src/engine.rt.
//! What answers the lines of a session.

#[allow(unused_imports)]
use crate::rattle::prelude::*;
use crate::proved::ivl_calendar::calendar::Calendar;
use crate::proved::ivl_calendar::faults::{Fault, write_fault};
use crate::proved::ivl_calendar::helps::write_help;
use crate::proved::ivl_calendar::names::{write_taken, write_who};
use crate::proved::ivl_calendar::replies::{write_line, write_span, write_spans};
use crate::proved::ivl_calendar::requests::{
    Booking, Cancelling, Gap, booking_from, cancelling_from, gap_from, room_and_day_from,
    window_from,
};
use crate::proved::ivl_calendar::shown::write_bookings;
use crate::proved::intervallum::interval::Interval;
use crate::proved::ivl_lines::{AnswersCommands, SessionFault, next_word, one_word, serve};
use crate::rattle::std::alloc::Global;
use crate::rattle::std::io;
use crate::rattle::std::io::{Read, Write};

const ROOM: &str = "room NAME";

const ROOMS: &str = "rooms";

const SHOW: &str = "show ROOM";

const OF: &str = "of WHO";

impl AnswersCommands for Calendar {
    fn command_may_take_long(&self, name: &[u8]) -> bool {
        match name {
            b"free" | b"of" => true,
            _ => false,
        }
    }

    fn answer_command<W: Write>(
        &mut self,
        name: &str,
        words: &str,
        writer: &mut W,
    ) -> io::Result<()> {
        match name {
            "room" => answer_room(self, words, writer),
            "rooms" => answer_rooms(self, words, writer),
            "book" => answer_book(self, words, writer),
            "cancel" => answer_cancel(self, words, writer),
            "show" => answer_show(self, words, writer),
            "gap" => answer_gap(self, words, writer),
            "free" => answer_free(self, words, writer),
            "who" => answer_who(self, words, writer),
            "of" => answer_of(self, words, writer),
            "help" => write_help(writer, words),
            _ if is_comment(name) => Ok(()),
            _ => write_fault(writer, &Fault::Command(name)),
        }
    }
}

/// Answers each line of the input, over a calendar that has no rooms at first. What is written is
/// flushed before each read, before a line that looks at all rooms, and at the end.
///
/// # Errors
///
/// `Read` if a read failed, or the reader still returned bytes after 2^64 - 1 reads; an interrupted
/// read is repeated. `Write` if a write or a flush failed. `Memory` if there is no memory to begin:
/// nothing is then read or written. A line that runs out of memory when it is read or carried out is
/// answered with that, and the session continues.
///
/// ```text
/// let mut input: &[u8] = b"room blue\nbook blue 2026-03-01 2026-03-04 anna\nwho blue 2026-03-04";
/// let mut written = Vec::new(alloc);
/// assert_eq!(rt; session(alloc, &mut input, &mut written), Ok(()));
/// assert_eq!(rt; written.as_slice(), b"ok\nbooked\nanna\n".as_slice());
/// ```
pub fn session<R: Read, W: Write>(
    alloc: Global,
    reader: &mut R,
    writer: &mut W,
) -> Result<(), SessionFault> {
    serve(alloc, &mut Calendar::new(alloc), reader, writer)
}

// Whether the first word of a line begins a comment: with `#`, which is 35.
fn is_comment(name: &str) -> bool {
    name.starts_with('#')
}

fn answer_room<W: Write>(calendar: &mut Calendar, words: &str, writer: &mut W) -> io::Result<()> {
    let Some(name) = one_word(words) else {
        return write_fault(writer, &Fault::Form(ROOM));
    };
    match calendar.room(name) {
        Some(_) => write_fault(writer, &Fault::Known(name)),
        None => add(calendar, name, writer),
    }
}

// Adds a room that there is not.
fn add<W: Write>(calendar: &mut Calendar, name: &str, writer: &mut W) -> io::Result<()> {
    match calendar.add(name) {
        Ok(()) => write_line(writer, "ok"),
        Err(_) => write_fault(writer, &Fault::Memory),
    }
}

fn answer_rooms<W: Write>(calendar: &mut Calendar, words: &str, writer: &mut W) -> io::Result<()> {
    match next_word(words) {
        Some(_) => write_fault(writer, &Fault::Form(ROOMS)),
        None => calendar.write_rooms(writer),
    }
}

fn answer_book<W: Write>(calendar: &mut Calendar, words: &str, writer: &mut W) -> io::Result<()> {
    match booking_from(words) {
        Ok(asked) => book(calendar, &asked, writer),
        Err(fault) => write_fault(writer, &fault),
    }
}

// Books a room, and says what came of it.
fn book<W: Write>(calendar: &mut Calendar, asked: &Booking<'_>, writer: &mut W) -> io::Result<()> {
    match calendar.book(asked.name, asked.days, asked.who) {
        Ok(done) => tell_booking(calendar, asked.name, &asked.days, done, writer),
        Err(_) => write_fault(writer, &Fault::Memory),
    }
}

// Says whether a room was free, and so is booked, or `None` if there is no such room.
fn tell_booking<W: Write>(
    calendar: &Calendar,
    name: &str,
    days: &Interval<i32>,
    done: Option<bool>,
    writer: &mut W,
) -> io::Result<()> {
    let Some(done) = done else {
        return write_fault(writer, &Fault::Room(name));
    };
    if done {
        write_line(writer, "booked")
    } else {
        answer_taken(calendar, name, days, writer)
    }
}

// Says what is in the way of a booking.
fn answer_taken<W: Write>(
    calendar: &Calendar,
    name: &str,
    days: &Interval<i32>,
    writer: &mut W,
) -> io::Result<()> {
    match calendar.room(name) {
        Some(room) => write_taken(writer, room, days),
        None => unreachable!(),
    }
}

fn answer_cancel<W: Write>(calendar: &mut Calendar, words: &str, writer: &mut W) -> io::Result<()> {
    match cancelling_from(words) {
        Ok(asked) => cancel(calendar, &asked, writer),
        Err(fault) => write_fault(writer, &fault),
    }
}

// Frees a room, and says what came of it.
fn cancel<W: Write>(
    calendar: &mut Calendar,
    asked: &Cancelling<'_>,
    writer: &mut W,
) -> io::Result<()> {
    match calendar.cancel(asked.name, asked.days) {
        Ok(done) => tell_cancelling(writer, asked.name, done),
        Err(_) => write_fault(writer, &Fault::Memory),
    }
}

// Says whether a room was booked, and so is freed, or `None` if there is no such room.
fn tell_cancelling<W: Write>(writer: &mut W, name: &str, done: Option<bool>) -> io::Result<()> {
    let Some(done) = done else {
        return write_fault(writer, &Fault::Room(name));
    };
    if done {
        write_line(writer, "cancelled")
    } else {
        write_line(writer, "not booked")
    }
}

fn answer_show<W: Write>(calendar: &mut Calendar, words: &str, writer: &mut W) -> io::Result<()> {
    match one_word(words) {
        Some(name) => show_room(calendar, name, writer),
        None => write_fault(writer, &Fault::Form(SHOW)),
    }
}

// Says how a room is booked.
fn show_room<W: Write>(calendar: &Calendar, name: &str, writer: &mut W) -> io::Result<()> {
    let Some(room) = calendar.room(name) else {
        return write_fault(writer, &Fault::Room(name));
    };
    match room.days_without_name() {
        Ok(days) => write_bookings(writer, room.named(), days.runs()),
        Err(_) => write_fault(writer, &Fault::Memory),
    }
}

fn answer_gap<W: Write>(calendar: &mut Calendar, words: &str, writer: &mut W) -> io::Result<()> {
    match gap_from(words) {
        Ok(asked) => show_gap(calendar, &asked, writer),
        Err(fault) => write_fault(writer, &fault),
    }
}

// Says when a room is free.
fn show_gap<W: Write>(calendar: &Calendar, asked: &Gap<'_>, writer: &mut W) -> io::Result<()> {
    let Some(room) = calendar.room(asked.name) else {
        return write_fault(writer, &Fault::Room(asked.name));
    };
    match room.first_gap(asked.window, asked.count) {
        Ok(gap) => write_gap(writer, gap),
        Err(_) => write_fault(writer, &Fault::Memory),
    }
}

// Writes the first and the last day of a gap, or `none`.
fn write_gap<W: Write>(writer: &mut W, gap: Option<Interval<i32>>) -> io::Result<()> {
    let Some(run) = gap else {
        return write_line(writer, "none");
    };
    write_span(writer, &run)?;
    writer.write_all(b"\n")
}

fn answer_free<W: Write>(calendar: &mut Calendar, words: &str, writer: &mut W) -> io::Result<()> {
    match window_from(words) {
        Ok(window) => show_free(calendar, window, writer),
        Err(fault) => write_fault(writer, &fault),
    }
}

// Says on which days all rooms are free.
fn show_free<W: Write>(calendar: &Calendar, window: Interval<i32>, writer: &mut W) -> io::Result<()> {
    match calendar.free_within(window) {
        Ok(free) => write_spans(writer, free.runs()),
        Err(_) => write_fault(writer, &Fault::Memory),
    }
}

fn answer_who<W: Write>(calendar: &mut Calendar, words: &str, writer: &mut W) -> io::Result<()> {
    match room_and_day_from(words) {
        Ok((name, day)) => show_who(calendar, name, day, writer),
        Err(fault) => write_fault(writer, &fault),
    }
}

// Says who has booked a room on a day.
fn show_who<W: Write>(calendar: &Calendar, name: &str, day: i32, writer: &mut W) -> io::Result<()> {
    match calendar.room(name) {
        Some(room) => write_who(writer, room, day),
        None => write_fault(writer, &Fault::Room(name)),
    }
}

fn answer_of<W: Write>(calendar: &mut Calendar, words: &str, writer: &mut W) -> io::Result<()> {
    match one_word(words) {
        Some(name) => calendar.write_days_of(writer, name),
        None => write_fault(writer, &Fault::Form(OF)),
    }
}
