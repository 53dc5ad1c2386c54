//! A set of the numbers from -127 to 127 as a list of flags, with which a set of `i8` is compared.

use intervallum::proved::interval_set::IntervalSet;
use intervallum::proved::ops::{Bounded, Cardinality, Contains, IsEmpty};

/// How many numbers there are.
const COUNT: usize = 255;

/// A flag for each number, true for a member.
pub struct Flags {
    flags: [bool; COUNT],
}

/// Where the flag of a number stands; past all flags for -128, which is out of range.
fn place(value: i8) -> usize {
    usize::from(value.wrapping_add(127) as u8)
}

impl Flags {
    pub fn none() -> Flags {
        Flags { flags: [false; COUNT] }
    }

    pub fn has(&self, value: i8) -> bool {
        self.flags.get(place(value)) == Some(&true)
    }

    /// Makes the number a member or not, and returns whether that changed anything.
    pub fn put(&mut self, value: i8, is_member: bool) -> bool {
        let had = self.has(value);
        if let Some(flag) = self.flags.get_mut(place(value)) {
            *flag = is_member;
        }
        had != self.has(value)
    }

    pub fn put_all(&mut self, lower: i8, upper: i8, is_member: bool) {
        for value in -127i8..=127 {
            if lower <= value && value <= upper {
                self.put(value, is_member);
            }
        }
    }

    /// Returns the number of members below a number.
    pub fn rank(&self, value: i8) -> u8 {
        let mut count: u8 = 0;
        for other in -127i8..=127 {
            if other < value && self.has(other) {
                count = count.saturating_add(1);
            }
        }
        count
    }

    pub fn size(&self) -> u8 {
        let mut count: u8 = 0;
        for value in -127i8..=127 {
            if self.has(value) {
                count = count.saturating_add(1);
            }
        }
        count
    }

    /// Returns the member with `index` members below it.
    pub fn nth(&self, index: u8) -> Option<i8> {
        let mut below: u8 = 0;
        for value in -127i8..=127 {
            if self.has(value) {
                if below == index {
                    return Some(value);
                }
                below = below.saturating_add(1);
            }
        }
        None
    }

    pub fn next_from(&self, value: i8) -> Option<i8> {
        (value..=127).find(|&other| self.has(other))
    }

    pub fn previous_to(&self, value: i8) -> Option<i8> {
        (-127..=value).rev().find(|&other| self.has(other))
    }

    /// Returns the ends of the run that holds a number.
    pub fn run_at(&self, value: i8) -> Option<(i8, i8)> {
        let mut run: Option<(i8, i8)> = None;
        for other in -127i8..=127 {
            if self.has(other) {
                run = Some(match run {
                    Some((lower, _)) => (lower, other),
                    None => (other, other),
                });
            } else if value < other {
                break;
            } else {
                run = None;
            }
        }
        match run {
            Some((lower, upper)) if lower <= value && value <= upper => run,
            _ => None,
        }
    }

    /// Returns the ends of the lowest `count` consecutive members from a number up.
    pub fn first_fit_from(&self, value: i8, count: u8) -> Option<(i8, i8)> {
        let mut lower = None;
        let mut length: u8 = 0;
        for other in -127i8..=127 {
            if value <= other && self.has(other) {
                let first = lower.unwrap_or(other);
                lower = Some(first);
                length = length.saturating_add(1);
                if length == count {
                    return Some((first, other));
                }
            } else {
                lower = None;
                length = 0;
            }
        }
        None
    }

    /// Returns how many numbers of an interval are not members.
    pub fn gaps_within(&self, lower: i8, upper: i8) -> u8 {
        let mut count: u8 = 0;
        for value in -127i8..=127 {
            if lower <= value && value <= upper && !self.has(value) {
                count = count.saturating_add(1);
            }
        }
        count
    }

    /// How many runs the members make.
    fn runs(&self) -> usize {
        let mut count: usize = 0;
        let mut was_member = false;
        for value in -127i8..=127 {
            let is_member = self.has(value);
            if is_member && !was_member {
                count = count.saturating_add(1);
            }
            was_member = is_member;
        }
        count
    }

    /// Returns whether the set has these members, their number as its size, and as many runs.
    pub fn agree(&self, set: &IntervalSet<i8>) -> bool {
        for value in -127i8..=127 {
            if set.contains(&value) != self.has(value) {
                return false;
            }
        }
        set.size() == self.size()
            && set.interval_count() == self.runs()
            && (set.is_empty() || Some(set.lower()) == self.nth(0))
    }
}
