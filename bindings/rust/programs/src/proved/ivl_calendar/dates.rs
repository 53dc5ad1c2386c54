// Written by bindings/rust/extract from crates/ivl_calendar/src/dates.rt.
//! Days as numbers from 1970-01-01, which is day 0, and their texts.

#[allow(unused_imports)]
use crate::rattle::prelude::*;
use crate::proved::ivl_calendar::faults::Fault;
use crate::proved::intervallum::interval::Interval;
use crate::proved::intervallum::ops::Range;
use jiff::civil::Date;
use jiff_fmt::temporal::DateTimePrinter;

/// Returns the number of a day.
pub fn day_of(date: Date) -> i32 {
    date.to_plain().to_unix_epoch_day()
}

/// Returns the date with this number, or `None` if it is outside the calendar of `jiff`, which spans
/// the years -9999 to 9999.
pub fn date_of(day: i32) -> Option<Date> {
    let plain = jiff_core::civil::Date::from_unix_epoch_day(i64::from(day)).ok()?;
    Some(Date::from_plain(plain))
}

/// Returns the number of the day whose date a word is, or `None` if it is not the text of a date. A
/// date with a time, an offset, a zone or a calendar is no date alone.
pub fn day_from(word: &str) -> Option<i32> {
    let Ok(date) = word.parse::<Date>() else {
        return None;
    };
    if has_text(date, word) {
        Some(day_of(date))
    } else {
        None
    }
}

// Whether a word is the text of a date.
fn has_text(date: Date, word: &str) -> bool {
    DateTimePrinter::new().date_text(date.to_plain()).as_str() == word
}

/// Returns the days from one date to another.
///
/// # Errors
///
/// `Day` if a word is not the date of a day, and `Order` if the last day is before the first.
pub fn days_from<'a>(first: &'a str, last: &'a str) -> Result<Interval<i32>, Fault<'a>> {
    let Some(from) = day_from(first) else {
        return Err(Fault::Day(first));
    };
    let Some(to) = day_from(last) else {
        return Err(Fault::Day(last));
    };
    if from <= to {
        Ok(Interval::new(from, to))
    } else {
        Err(Fault::Order(first, last))
    }
}
