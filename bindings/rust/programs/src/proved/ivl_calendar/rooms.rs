// Written by bindings/rust/extract from crates/ivl_calendar/src/rooms.rt.
//! Rooms, and the days on which they are booked.

#[allow(unused_imports)]
use crate::rattle::prelude::*;
use crate::proved::intervallum::interval::Interval;
use crate::proved::intervallum::interval_set::IntervalSet;
use crate::proved::intervallum::ops::{Bounded, Range};
use crate::proved::ivl_map::IntervalMap;
use crate::proved::ivl_paged::PagedSet;
use crate::rattle::std::alloc::{AllocError, Global};
use crate::rattle::std::collections::BTreeMap;

/// The bookings of a room, by the number of the day. A contract sees the runs of the days that are booked without a
/// name, and the list of the other bookings.
///
/// The days without a name stand in a `PagedSet`, so that bookings of a room may come in any order. A map has the
/// others: one of `n` bookings with a name moves those that come later, `O(n)`. All of these days are days of the
/// calendar.
pub struct Room {
    alloc: Global,
    unnamed: PagedSet<i32>,
    named: IntervalMap<i32, String>,
}

impl Room {
    /// Returns a room that is free on all days. Does not allocate.
    pub fn new(alloc: Global) -> Room {
        Room {
            alloc,
            unnamed: PagedSet::new(alloc),
            named: IntervalMap::empty(alloc),
        }
    }

    /// Returns the first `days` consecutive days of a window on which the room is free, or `None` if there are none.
    /// The caller must ensure that `days` is above 0.
    ///
    /// `O(k log n)`, where `k` of the `n` runs of booked days overlap the window. Fails only if allocation fails.
    pub fn first_gap(
        &self,
        window: Interval<i32>,
        days: u32,
    ) -> Result<Option<Interval<i32>>, AllocError> {
        let mut free = days_of(self.alloc, window)?;
        self.take_busy(&mut free, window)?;
        Ok(free.first_fit(days))
    }

    /// Books the room if it is free on all of these days, and returns whether it was. The caller must ensure that the
    /// days are dates in order.
    ///
    /// `O(log n)` for `n` runs of booked days; a booking with a name moves those with a name that come later.
    ///
    /// # Errors
    ///
    /// Fails only if allocation fails. Nothing is booked after an error, or if the result is false.
    pub fn book(&mut self, days: Interval<i32>, who: Option<&str>) -> Result<bool, AllocError> {
        if !self.is_free(&days) {
            return Ok(false);
        }
        match who {
            Some(name) => self.add_named(days, name)?,
            None => self.add_unnamed(days)?,
        }
        Ok(true)
    }

    // Books days without a name, also those that were booked so.
    fn add_unnamed(&mut self, days: Interval<i32>) -> Result<(), AllocError> {
        self.unnamed.insert_interval(days)
    }

    // Books days for a name, also those that were booked.
    fn add_named(&mut self, days: Interval<i32>, name: &str) -> Result<(), AllocError> {
        let name = String::from_str(self.alloc, name)?;
        self.named.insert(days, name)
    }

    /// Frees the room on all of these days, of whatever bookings they are, and returns whether it was booked on one of
    /// them. The caller must ensure that the days are in order.
    ///
    /// `O(log n)` for `n` runs of booked days; a booking with a name that is split or goes moves those that come later.
    /// Where the days have both bookings with a name and some without, the runs without a name are copied.
    ///
    /// # Errors
    ///
    /// Fails only if allocation fails. Nothing is freed after an error, or if the result is false.
    pub fn cancel(&mut self, days: Interval<i32>) -> Result<bool, AllocError> {
        if self.is_free(&days) {
            return Ok(false);
        }
        self.free(days)?;
        Ok(true)
    }

    // Frees days, also those that were free.
    fn free(&mut self, days: Interval<i32>) -> Result<(), AllocError> {
        if self.has_all_named(&days) {
            return self.remove_named(days);
        }
        if self.has_no_named(&days) {
            return self.remove_unnamed(days);
        }
        self.remove_both(days)
    }

    // Whether none of these days is booked without a name.
    fn has_all_named(&self, days: &Interval<i32>) -> bool {
        self.unnamed.in_whole();
        is_free_of(&self.unnamed, days)
    }

    // Whether none of these days is booked for a name.
    fn has_no_named(&self, days: &Interval<i32>) -> bool {
        self.first_named(days).is_none()
    }

    // Frees days of the bookings with a name.
    fn remove_named(&mut self, days: Interval<i32>) -> Result<(), AllocError> {
        self.named.remove(days)
    }

    // Frees days of those that are booked without a name.
    fn remove_unnamed(&mut self, days: Interval<i32>) -> Result<(), AllocError> {
        self.unnamed.remove_interval(days)
    }

    // Frees days of both: of a copy first, since the second step may fail too.
    fn remove_both(&mut self, days: Interval<i32>) -> Result<(), AllocError> {
        let mut unnamed = self.unnamed.try_clone()?;
        unnamed.remove_interval(days)?;
        self.named.remove(days)?;
        self.unnamed = unnamed;
        Ok(())
    }

    /// Returns whether the room is free on all of these days.
    fn is_free(&self, days: &Interval<i32>) -> bool {
        self.has_all_named(days) && self.first_named(days).is_none()
    }

    /// Returns the first booking with a name that has one of these days, or `None` if there is none: all days
    /// in a row that are booked for this name, and the name. The caller must ensure that the days are in order.
    /// `O(log n)` for `n` bookings with a name. Does not allocate.
    pub fn first_named(&self, days: &Interval<i32>) -> Option<(Interval<i32>, &str)> {
        let Some(met) = self.named.next_from(days.lower()) else {
            return None;
        };
        if met.0.lower() <= days.upper() {
            Some((met.0, met.1.as_str()))
        } else {
            None
        }
    }

    /// Returns the name for which the room is booked on a day, or `None` if there is none. `O(log n)` for `n` bookings
    /// with a name. Does not allocate.
    pub fn name_on(&self, day: i32) -> Option<&str> {
        match self.named.get(&day) {
            Some(name) => Some(name.as_str()),
            None => None,
        }
    }

    /// Returns whether the room is booked without a name on a day. `O(log n)` for `n` runs of such days. Does not
    /// allocate.
    pub fn is_booked_without_name(&self, day: i32) -> bool {
        self.unnamed.contains(&day)
    }

    /// Returns the bookings with a name, in ascending order. Does not allocate.
    pub fn named(&self) -> &[(Interval<i32>, String)] {
        self.named.entries()
    }

    /// Returns the days that are booked without a name. `O(n)` for `n` runs of them. Fails only if allocation fails.
    pub fn days_without_name(&self) -> Result<IntervalSet<i32>, AllocError> {
        self.unnamed.to_set()
    }

    // Takes the booked days of a window out of days of the window.
    fn take_busy(&self, free: &mut PagedSet<i32>, window: Interval<i32>) -> Result<(), AllocError> {
        take_unnamed(free, &self.unnamed, window)?;
        take_named(free, self.named.overlapping(window))
    }
}

/// Returns the days of a window on which all rooms are free.
///
/// `O(m log n)`, where the rooms have `m` runs of booked days that overlap the window, and looks at each room. Fails only
/// if allocation fails.
pub fn free_in_all(
    alloc: Global,
    rooms: &BTreeMap<String, Room>,
    window: Interval<i32>,
) -> Result<IntervalSet<i32>, AllocError> {
    let mut free = days_of(alloc, window)?;
    for room in rooms.values() {
        room.take_busy(&mut free, window)?;
    }
    free.to_set()
}

// The days of a window, as a set from which some can be taken.
fn days_of(alloc: Global, window: Interval<i32>) -> Result<PagedSet<i32>, AllocError> {
    let mut days = PagedSet::new(alloc);
    days.insert_interval(window)?;
    Ok(days)
}

// Takes busy days out of days of a window.
fn take_unnamed(
    free: &mut PagedSet<i32>,
    busy: &PagedSet<i32>,
    window: Interval<i32>,
) -> Result<(), AllocError> {
    free.in_whole();
    let mut next = run_from(busy, window.lower_bound());
    while let Some(run) = next {
        free.remove_interval(run)?;
        if window.upper_bound() <= run.upper_bound() {
            return Ok(());
        }
        next = run_from(busy, run.upper_bound() + 1);
    }
    Ok(())
}

// Takes the days of bookings out of days.
fn take_named(
    free: &mut PagedSet<i32>,
    bookings: &[(Interval<i32>, String)],
) -> Result<(), AllocError> {
    free.in_whole();
    let mut left = bookings;
    while let Some((booking, later)) = left.split_first() {
        free.remove_interval(booking.0)?;
        left = later;
    }
    Ok(())
}

// Whether none of these days is among those of a set.
fn is_free_of(busy: &PagedSet<i32>, days: &Interval<i32>) -> bool {
    match busy.next_from(days.lower_bound()) {
        Some(next) => days.upper_bound() < next,
        None => true,
    }
}

// The first run of days that ends on a day or after it, or `None` if there is none.
fn run_from(days: &PagedSet<i32>, day: i32) -> Option<Interval<i32>> {
    let next = days.next_from(day)?;
    days.run_at(next)
}
