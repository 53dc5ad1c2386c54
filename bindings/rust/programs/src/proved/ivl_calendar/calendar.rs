// Written by bindings/rust/extract from crates/ivl_calendar/src/calendar.rt.
//! Rooms by name.

#[allow(unused_imports)]
use crate::rattle::prelude::*;
use crate::proved::ivl_calendar::names::write_days_of;
use crate::proved::ivl_calendar::rooms::{Room, free_in_all};
use crate::proved::ivl_calendar::shown::write_rooms;
use crate::proved::intervallum::interval::Interval;
use crate::proved::intervallum::interval_set::IntervalSet;
use crate::rattle::std::alloc::{AllocError, Global};
use crate::rattle::std::collections::BTreeMap;
use crate::rattle::std::io;
use crate::rattle::std::io::Write;

/// Rooms by name. A contract sees the list of the names, each with the bookings of the room.
pub struct Calendar {
    alloc: Global,
    rooms: BTreeMap<String, Room>,
}

impl Calendar {
    /// Returns a calendar without rooms. Does not allocate.
    pub fn new(alloc: Global) -> Calendar {
        Calendar {
            alloc,
            rooms: BTreeMap::new(alloc),
        }
    }

    /// Returns the room with this name, or `None` if there is no such room. `O(log n)` of `n` rooms.
    pub fn room(&self, name: &str) -> Option<&Room> {
        self.rooms.get(name)
    }

    /// Adds a room that is free on all days. The caller must ensure that no room has this name. Check
    /// with `room`. `O(log n)` of `n` rooms.
    ///
    /// # Errors
    ///
    /// Fails only if allocation fails. Nothing is added after an error.
    pub fn add(&mut self, name: &str) -> Result<(), AllocError> {
        let key = String::from_str(self.alloc, name)?;
        self.rooms.insert(key, Room::new(self.alloc))?;
        Ok(())
    }

    /// Books a room, for a name or without one, if it is free on all of these days, and returns whether
    /// it was, or `None` if there is no such room. The caller must ensure that the days are dates in
    /// order.
    ///
    /// # Errors
    ///
    /// Fails only if allocation fails. Nothing is booked after an error.
    pub fn book(
        &mut self,
        name: &str,
        days: Interval<i32>,
        who: Option<&str>,
    ) -> Result<Option<bool>, AllocError> {
        let Some(room) = self.rooms.get_mut(name) else {
            return Ok(None);
        };
        match room.book(days, who) {
            Ok(done) => Ok(Some(done)),
            Err(error) => Err(error),
        }
    }

    /// Frees a room on all of these days, and returns whether it was booked on one of them, or `None` if there is no
    /// such room. The caller must ensure that the days are in order.
    ///
    /// # Errors
    ///
    /// Fails only if allocation fails. Nothing is freed after an error.
    pub fn cancel(&mut self, name: &str, days: Interval<i32>) -> Result<Option<bool>, AllocError> {
        let Some(room) = self.rooms.get_mut(name) else {
            return Ok(None);
        };
        match room.cancel(days) {
            Ok(done) => Ok(Some(done)),
            Err(error) => Err(error),
        }
    }

    /// Returns the days of a window on which all rooms are free. Fails only if allocation fails.
    pub fn free_within(&self, window: Interval<i32>) -> Result<IntervalSet<i32>, AllocError> {
        free_in_all(self.alloc, &self.rooms, window)
    }

    /// Writes the names of the rooms in their order, as a line. Does not allocate.
    pub fn write_rooms<W: Write>(&self, writer: &mut W) -> io::Result<()> {
        write_rooms(writer, &self.rooms)
    }

    /// Writes the days that are booked for a name, as a line. Looks at each booking with a name. Does not allocate.
    pub fn write_days_of<W: Write>(&self, writer: &mut W, who: &str) -> io::Result<()> {
        write_days_of(writer, &self.rooms, who)
    }
}
