//! Values, ranges, pairs and intervals as parts of sets.
use super::{IntervalSet, PagedSet};
use crate::proved::interval::Interval;
use crate::proved::ops::{Bounded as _, Empty as _, IsEmpty as _, Range as _};
use crate::proved::width::Width;
use alloc::vec::Vec;
use core::ops::{Bound, Range, RangeFrom, RangeFull, RangeInclusive, RangeTo, RangeToInclusive};

/// A part of a set: a value or a reference to one, a range of std, a pair of inclusive bounds, or a proved [`Interval`].
///
/// A range without a bound ends with the limits of `T`, unless its other bound lies outside them: `255..` of `u8` has the
/// number 255, which is in no set of `u8`. An empty range, and a pair that crosses, have no numbers. Calls that add
/// numbers require them to be within the limits; for calls that ask, other numbers are no members.
///
/// ```
/// use intervallum::IntervalSet;
/// use std::ops::Bound::{Excluded, Unbounded};
///
/// let mut a: IntervalSet<u8> = [1, 2, 9].into_iter().collect();
/// a.extend([(4, 5)]);
/// a.extend([250..]);
/// assert_eq!(a, IntervalSet::from([1..=2, 4..=5, 9..=9, 250..=254]));
/// assert!(a.includes(4..6) && a.includes(9) && !a.includes(..) && !a.includes(255..));
/// assert!(a.includes((Excluded(249), Unbounded)) && a.includes(&(1..3)));
/// ```
#[diagnostic::on_unimplemented(
    message = "`{Self}` is no value, range or pair of bounds of type `{T}`",
    note = "a piece is a `T`, a range of `T` as `1..=5`, `..5` or `..`, a pair `(T, T)` of inclusive bounds or of `Bound<T>`"
)]
pub trait Piece<T: Width> {
    /// Returns the least and the greatest number. If there is none, the first is above the second.
    fn numbers(&self) -> (i128, i128);

    /// Returns the interval of the numbers, or `None` if some are outside the limits.
    fn interval(&self) -> Option<Interval<T>> {
        match self.numbers() {
            (lower, upper) if lower > upper => Some(Interval::empty()),
            (lower, upper) => Some(Interval::new(T::from_number(lower)?, T::from_number(upper)?)),
        }
    }

    /// Returns the interval of the numbers that are within the limits.
    fn clamped(&self) -> Interval<T> {
        let (lower, upper) = self.numbers();
        let bounds = (lower.max(T::min_value().number()), upper.min(T::max_value().number()));
        Piece::<T>::interval(&Numbers(bounds)).unwrap_or_else(Interval::empty)
    }
}

/// What sets are made of: a [`Piece`], or a set of either kind, by value or by reference.
///
/// ```
/// use intervallum::{IntervalSet, PagedSet};
///
/// let busy = [IntervalSet::from([9..=10]), IntervalSet::from([10..=11, 15..=15])];
/// assert_eq!(busy.iter().collect::<IntervalSet<_>>(), IntervalSet::from([9..=11, 15..=15]));
/// assert_eq!(PagedSet::from(busy).len(), 4);
/// ```
#[diagnostic::on_unimplemented(
    message = "no set of `{T}` is made of `{Self}`",
    note = "sets are made of `T`, ranges of `T` as `1..=5`, `..5` or `..`, pairs `(T, T)` of inclusive bounds, and sets of `T`"
)]
pub trait Pieces<T: Width> {
    /// Adds the intervals to a vector, or returns the least and the greatest number of one that is outside the limits.
    fn add_to(&self, intervals: &mut Vec<Interval<T>>) -> Result<(), (i128, i128)>;

    /// Adds the intervals of all pieces to a vector, or returns the least and the greatest number of the first that is outside
    /// the limits. May go on to the last piece before it returns.
    fn add_all_to(pieces: impl Iterator<Item = Self>, intervals: &mut Vec<Interval<T>>) -> Result<(), (i128, i128)>
    where
        Self: Sized,
    {
        for piece in pieces {
            piece.add_to(intervals)?;
        }
        Ok(())
    }
}

/// The numbers from the first to the second, which may be outside the limits of a type.
pub(crate) struct Numbers(pub (i128, i128));

impl<T: Width> Piece<T> for Numbers {
    fn numbers(&self) -> (i128, i128) {
        self.0
    }
}

const NONE: (i128, i128) = (1, 0);

/// The numbers between two bounds, if they are told.
fn between<T: Width>(lower: Bound<T>, upper: Bound<T>) -> (i128, i128) {
    let (least, greatest) = (T::min_value().number(), T::max_value().number());
    let first = match lower {
        Bound::Included(x) => x.number(),
        Bound::Excluded(x) => x.number().saturating_add(1),
        Bound::Unbounded => least,
    };
    let last = match upper {
        Bound::Included(x) => x.number(),
        Bound::Excluded(x) => x.number().saturating_sub(1),
        Bound::Unbounded => greatest,
    };
    match (lower, upper) {
        // the one bound is a number of the range, also where it is outside the limits
        (Bound::Included(_), Bound::Unbounded) => (first, last.max(first)),
        (Bound::Unbounded, Bound::Included(_)) => (first.min(last), last),
        _ => (first, last),
    }
}

/// The interval from one value to another, or `None` if some are outside the limits.
fn from_to<T: Width>(lower: T, upper: T) -> Option<Interval<T>> {
    // an interval whose bounds cross is empty
    match Interval::in_range(lower, upper) {
        true => Some(Interval::new(lower, upper)),
        false => (lower > upper).then(Interval::empty),
    }
}

macro_rules! pieces {
    ($($piece:ty, $x:ident => $numbers:expr $(, $interval:expr)?;)*) => {$(
        impl<T: Width> Piece<T> for $piece {
            fn numbers(&self) -> (i128, i128) {
                let $x = self;
                $numbers
            }

            $(fn interval(&self) -> Option<Interval<T>> {
                let $x = self;
                $interval
            })?
        }

        impl<T: Width> Pieces<T> for $piece {
            fn add_to(&self, intervals: &mut Vec<Interval<T>>) -> Result<(), (i128, i128)> {
                intervals.push(Piece::<T>::interval(self).ok_or_else(|| Piece::<T>::numbers(self))?);
                Ok(())
            }

            fn add_all_to(
                pieces: impl Iterator<Item = Self>,
                intervals: &mut Vec<Interval<T>>,
            ) -> Result<(), (i128, i128)> {
                let mut outside = None;
                // a loop over a list that nothing leaves needs no test of the room
                intervals.extend(pieces.map(|piece| {
                    Piece::<T>::interval(&piece).unwrap_or_else(|| {
                        outside.get_or_insert_with(|| Piece::<T>::numbers(&piece));
                        Interval::empty()
                    })
                }));
                outside.map_or(Ok(()), Err)
            }
        }
    )*};
}

pieces! {
    T, x => (x.number(), x.number()), from_to(*x, *x);
    &T, x => (x.number(), x.number()), from_to(**x, **x);
    (T, T), x => (x.0.number(), x.1.number()), from_to(x.0, x.1);
    &(T, T), x => (x.0.number(), x.1.number()), from_to(x.0, x.1);
    Range<T>, x => (x.start.number(), x.end.number().saturating_sub(1));
    &Range<T>, x => (x.start.number(), x.end.number().saturating_sub(1));
    RangeInclusive<T>, x => if x.is_empty() { NONE } else { (x.start().number(), x.end().number()) };
    &RangeInclusive<T>, x => if x.is_empty() { NONE } else { (x.start().number(), x.end().number()) };
    RangeFrom<T>, x => between(Bound::Included(x.start), Bound::Unbounded);
    RangeTo<T>, x => between(Bound::Unbounded, Bound::Excluded(x.end));
    RangeToInclusive<T>, x => between(Bound::Unbounded, Bound::Included(x.end));
    RangeFull, _x => between::<T>(Bound::Unbounded, Bound::Unbounded);
    (Bound<T>, Bound<T>), x => between(x.0, x.1);
    Interval<T>, x => if x.is_empty() { NONE } else { (x.lower().number(), x.upper().number()) };
}

macro_rules! sets_as_pieces {
    ($($Set:ident $runs:ident),*) => {$(
        impl<T: Width> Pieces<T> for $Set<T> {
            fn add_to(&self, intervals: &mut Vec<Interval<T>>) -> Result<(), (i128, i128)> {
                intervals.extend(self.as_proved().$runs());
                Ok(())
            }
        }

        impl<T: Width> Pieces<T> for &$Set<T> {
            fn add_to(&self, intervals: &mut Vec<Interval<T>>) -> Result<(), (i128, i128)> {
                (*self).add_to(intervals)
            }
        }
    )*};
}

sets_as_pieces!(IntervalSet runs, PagedSet iter);
