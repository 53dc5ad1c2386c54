// Written by bindings/rust/extract from crates/ivl_calendar/src/requests.rt.
//! What a line asks for, by the words after its first.

#[allow(unused_imports)]
use crate::rattle::prelude::*;
use crate::proved::ivl_calendar::dates::{day_from, days_from};
use crate::proved::ivl_calendar::faults::Fault;
use crate::proved::intervallum::interval::Interval;
use crate::proved::ivl_lines::{next_word, number_from, three_words, two_words};

const BOOK: &str = "book ROOM FIRST LAST or book ROOM FIRST LAST WHO";

const CANCEL: &str = "cancel ROOM FIRST LAST";

const GAP: &str = "gap ROOM DAYS FIRST LAST";

const FREE: &str = "free FIRST LAST";

const WHO: &str = "who ROOM DATE";

/// The room that is to be booked, the days, and the name of who books, if there is one.
pub struct Booking<'a> {
    pub name: &'a str,
    pub days: Interval<i32>,
    pub who: Option<&'a str>,
}

/// The room that is to be freed, and the days.
pub struct Cancelling<'a> {
    pub name: &'a str,
    pub days: Interval<i32>,
}

/// The room whose first gap is wanted, how many days it is to have, and the window.
pub struct Gap<'a> {
    pub name: &'a str,
    pub count: u32,
    pub window: Interval<i32>,
}

/// Reads the words after `book`: the name of a room, the days, and the name of who books, if there is one.
pub fn booking_from(words: &str) -> Result<Booking<'_>, Fault<'_>> {
    let Some((name, first, last, rest)) = three_and_more(words) else {
        return Err(Fault::Form(BOOK));
    };
    match days_from(first, last) {
        Ok(days) => match who_from(rest) {
            Ok(who) => Ok(Booking { name, days, who }),
            Err(fault) => Err(fault),
        },
        Err(fault) => Err(fault),
    }
}

// The first three words of a text and what follows them, or `None` if there are fewer.
fn three_and_more(words: &str) -> Option<(&str, &str, &str, &str)> {
    let (a, rest) = next_word(words)?;
    let (b, rest) = next_word(rest)?;
    let (c, rest) = next_word(rest)?;
    Some((a, b, c, rest))
}

// The name that is the only word of a text, or `Ok(None)` if there is no word.
fn who_from(words: &str) -> Result<Option<&str>, Fault<'_>> {
    let Some((who, rest)) = next_word(words) else {
        return Ok(None);
    };
    match next_word(rest) {
        Some(_) => Err(Fault::Form(BOOK)),
        None if is_name(who) => Ok(Some(who)),
        None => Err(Fault::Name(who)),
    }
}

// Whether a word may be the name of who books: a date is more likely a word too much, and `free` is what `who` answers.
fn is_name(word: &str) -> bool {
    word != "free" && day_from(word).is_none()
}

/// Reads the words after `cancel`: the name of a room, and the days.
pub fn cancelling_from(words: &str) -> Result<Cancelling<'_>, Fault<'_>> {
    let Some((name, first, last)) = three_words(words) else {
        return Err(Fault::Form(CANCEL));
    };
    match days_from(first, last) {
        Ok(days) => Ok(Cancelling { name, days }),
        Err(fault) => Err(fault),
    }
}

/// Reads the words after `who`: the name of a room, and the day.
pub fn room_and_day_from(words: &str) -> Result<(&str, i32), Fault<'_>> {
    let Some((name, word)) = two_words(words) else {
        return Err(Fault::Form(WHO));
    };
    match day_from(word) {
        Some(day) => Ok((name, day)),
        None => Err(Fault::Day(word)),
    }
}

/// Reads the words after `gap`: the name of a room, how many days, and the window.
pub fn gap_from(words: &str) -> Result<Gap<'_>, Fault<'_>> {
    let Some((name, count, first, last)) = four_words(words) else {
        return Err(Fault::Form(GAP));
    };
    let count = count_from(count)?;
    match days_from(first, last) {
        Ok(window) => Ok(Gap {
            name,
            count,
            window,
        }),
        Err(fault) => Err(fault),
    }
}

// The four words of a text, or `None` unless there are exactly four.
fn four_words(words: &str) -> Option<(&str, &str, &str, &str)> {
    let (a, rest) = next_word(words)?;
    let (b, c, d) = three_words(rest)?;
    Some((a, b, c, d))
}

/// Reads the words after `free`: the window.
pub fn window_from(words: &str) -> Result<Interval<i32>, Fault<'_>> {
    let Some((first, last)) = two_words(words) else {
        return Err(Fault::Form(FREE));
    };
    match days_from(first, last) {
        Ok(window) => Ok(window),
        Err(fault) => Err(fault),
    }
}

// A count of days above 0.
fn count_from(word: &str) -> Result<u32, Fault<'_>> {
    let Some(number) = number_from(word) else {
        return Err(Fault::Number(word));
    };
    if number < 1 {
        return Err(Fault::Low(word));
    }
    match u32::try_from(number) {
        Ok(count) => Ok(count),
        Err(_) => Err(Fault::High(word)),
    }
}
