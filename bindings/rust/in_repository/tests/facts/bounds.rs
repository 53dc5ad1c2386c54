//! Two more types of bounds: one with the shortest possible range, and one with many values outside its range.
use intervallum::proved::width::Width;
use std::fmt;
use std::num::ParseIntError;
use std::str::FromStr;

/// A bit. Its range is 0 to 1, and every value is in it.
#[derive(Clone, Copy, PartialEq, Eq, PartialOrd, Ord, Debug)]
pub struct Bit(bool);

impl Width for Bit {
    type Output = u8;

    fn min_value() -> Bit {
        Bit(false)
    }

    fn max_value() -> Bit {
        Bit(true)
    }

    fn number(self) -> i128 {
        i128::from(self.0)
    }

    fn from_number(number: i128) -> Option<Bit> {
        (0..=1).contains(&number).then_some(Bit(number == 1))
    }
}

impl fmt::Display for Bit {
    fn fmt(&self, f: &mut fmt::Formatter<'_>) -> fmt::Result {
        f.write_str(if self.0 { "1" } else { "0" })
    }
}

impl FromStr for Bit {
    type Err = ();

    fn from_str(text: &str) -> Result<Bit, ()> {
        match text {
            "0" => Ok(Bit(false)),
            "1" => Ok(Bit(true)),
            _ => Err(()),
        }
    }
}

/// A number whose range is -100 to 100. Every other `i16` is a value outside the range.
#[derive(Clone, Copy, PartialEq, Eq, PartialOrd, Ord, Debug)]
pub struct Narrow(pub i16);

impl Width for Narrow {
    type Output = u16;

    fn min_value() -> Narrow {
        Narrow(-100)
    }

    fn max_value() -> Narrow {
        Narrow(100)
    }

    fn number(self) -> i128 {
        i128::from(self.0)
    }

    fn from_number(number: i128) -> Option<Narrow> {
        (-100..=100).contains(&number).then_some(Narrow(number as i16))
    }
}

impl fmt::Display for Narrow {
    fn fmt(&self, f: &mut fmt::Formatter<'_>) -> fmt::Result {
        self.0.fmt(f)
    }
}

impl FromStr for Narrow {
    type Err = ParseIntError;

    fn from_str(text: &str) -> Result<Narrow, ParseIntError> {
        text.parse().map(Narrow)
    }
}
