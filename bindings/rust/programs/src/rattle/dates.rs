//! Dates of Rattle's crates `jiff`, `jiff_core` and `jiff_fmt`: as much of them as the calendar uses. The calendar is that of
//! Gregory, from year -9999 to year 9999.

/// A date, with its text.
pub mod jiff {
    pub mod civil {
        use super::super::jiff_core::civil::Date as Plain;
        use super::super::jiff_fmt::temporal::DateTimePrinter;
        use core::{fmt, str::FromStr};

        /// A date.
        #[derive(Clone, Copy, Debug, PartialEq, Eq)]
        pub struct Date(Plain);

        impl Date {
            /// Returns the date as numbers.
            pub fn to_plain(self) -> Plain {
                self.0
            }

            /// Returns the date of numbers.
            pub fn from_plain(plain: Plain) -> Date {
                Date(plain)
            }
        }

        impl fmt::Display for Date {
            fn fmt(&self, f: &mut fmt::Formatter<'_>) -> fmt::Result {
                f.write_str(DateTimePrinter::new().date_text(self.0).as_str())
            }
        }

        /// Reads the texts that a date is written as. Rattle reads others too; the calendar refuses those.
        impl FromStr for Date {
            type Err = ();

            fn from_str(text: &str) -> Result<Date, ()> {
                let (rest, sign, width) = match text.strip_prefix('-') {
                    Some(rest) => (rest, -1, 6),
                    None => (text, 1, 4),
                };
                let bytes = rest.as_bytes();
                if bytes.len() != width + 6 || bytes[width] != b'-' || bytes[width + 3] != b'-' {
                    return Err(());
                }
                let number = |from: usize, to: usize| {
                    bytes[from..to].iter().try_fold(0i32, |n, digit| match digit {
                        b'0'..=b'9' => Ok(10 * n + i32::from(digit - b'0')),
                        _ => Err(()),
                    })
                };
                let (year, month, day) =
                    (sign * number(0, width)?, number(width + 1, width + 3)?, number(width + 4, width + 6)?);
                Plain::new(year, month, day).map(Date).ok_or(())
            }
        }
    }
}

/// A date as numbers.
pub mod jiff_core {
    pub mod civil {
        const CYCLE: i64 = 146_097; // the days of 400 years

        /// A year, a month and a day that there is.
        #[derive(Clone, Copy, Debug, PartialEq, Eq)]
        pub struct Date {
            pub(in super::super) year: i32,
            pub(in super::super) month: i32,
            pub(in super::super) day: i32,
        }

        impl Date {
            /// Returns the date with these numbers, if there is one.
            pub fn new(year: i32, month: i32, day: i32) -> Option<Date> {
                let leaps = year % 4 == 0 && (year % 100 != 0 || year % 400 == 0);
                let days = match month {
                    2 => 28 + i32::from(leaps),
                    4 | 6 | 9 | 11 => 30,
                    _ => 31,
                };
                let is_date = (-9999..=9999).contains(&year) && (1..=12).contains(&month) && (1..=days).contains(&day);
                is_date.then_some(Date { year, month, day })
            }

            /// Returns the number of days from 1970-01-01.
            pub fn to_unix_epoch_day(self) -> i32 {
                // a year from March on, so that a leap day is its last
                let year = self.year - i32::from(self.month <= 2);
                let (cycle, of_cycle) = (year.div_euclid(400), year.rem_euclid(400));
                let of_year = (153 * ((self.month + 9) % 12) + 2) / 5 + self.day - 1;
                let day = of_cycle * 365 + of_cycle / 4 - of_cycle / 100 + of_year;
                cycle * CYCLE as i32 + day - 719_468
            }

            /// Returns the date that is so many days from 1970-01-01, if it lies in the calendar.
            // an error without words: the calendar asks only whether there is one
            #[allow(clippy::result_unit_err)]
            pub fn from_unix_epoch_day(day: i64) -> Result<Date, ()> {
                if !(-4_371_587..=2_932_896).contains(&day) {
                    return Err(());
                }
                let (cycle, of_cycle) = ((day + 719_468).div_euclid(CYCLE), (day + 719_468).rem_euclid(CYCLE));
                let year = (of_cycle - of_cycle / 1460 + of_cycle / 36_524 - of_cycle / 146_096) / 365;
                let of_year = of_cycle - (365 * year + year / 4 - year / 100);
                let month = (5 * of_year + 2) / 153;
                let day = of_year - (153 * month + 2) / 5 + 1;
                let month = if month < 10 { month + 3 } else { month - 9 };
                let year = 400 * cycle + year + i64::from(month <= 2);
                Date::new(year as i32, month as i32, day as i32).ok_or(())
            }
        }

        #[cfg(test)]
        mod tests {
            use super::Date;

            #[test]
            fn each_day_has_one_date_and_they_follow_each_other() {
                let mut day = -4_371_587;
                for year in -9999..=9999 {
                    for month in 1..=12 {
                        for number in 1..=31 {
                            if let Some(date) = Date::new(year, month, number) {
                                assert_eq!(i64::from(date.to_unix_epoch_day()), day);
                                assert_eq!(Date::from_unix_epoch_day(day), Ok(date));
                                day += 1;
                            }
                        }
                    }
                }
                assert_eq!(day - 1, 2_932_896);
                assert_eq!(Date::from_unix_epoch_day(0), Ok(Date::new(1970, 1, 1).unwrap()));
                assert!(Date::from_unix_epoch_day(day).is_err() && Date::from_unix_epoch_day(-4_371_588).is_err());
            }
        }
    }
}

/// The text of a date.
pub mod jiff_fmt {
    pub mod temporal {
        use super::super::jiff_core::civil::Date;
        use core::fmt::Write;

        /// Writes dates.
        pub struct DateTimePrinter;

        /// The text of a date, at most `-009999-12-31`. As `ArrayString` of Rattle's `arrayvec`, it does not allocate.
        pub struct DateText {
            bytes: [u8; 13],
            len: usize,
        }

        impl DateTimePrinter {
            /// Returns a printer.
            // the name that Rattle has
            #[allow(clippy::new_without_default)]
            pub fn new() -> Self {
                DateTimePrinter
            }

            /// Returns the text of a date.
            pub fn date_text(&self, date: Date) -> DateText {
                let mut text = DateText { bytes: [0; 13], len: 0 };
                let (sign, width) = if date.year < 0 { ("-", 6) } else { ("", 4) };
                let (year, month, day) = (date.year.abs(), date.month, date.day);
                write!(text, "{sign}{year:0width$}-{month:02}-{day:02}").expect("room for a date");
                text
            }
        }

        impl DateText {
            /// Returns the text.
            pub fn as_str(&self) -> &str {
                core::str::from_utf8(&self.bytes[..self.len]).expect("ASCII")
            }
        }

        impl Write for DateText {
            fn write_str(&mut self, part: &str) -> core::fmt::Result {
                let room = self.bytes.get_mut(self.len..self.len + part.len()).ok_or(core::fmt::Error)?;
                room.copy_from_slice(part.as_bytes());
                self.len += part.len();
                Ok(())
            }
        }
    }
}
