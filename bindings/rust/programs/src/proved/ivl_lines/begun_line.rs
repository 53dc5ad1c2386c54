// Written by bindings/rust/extract from crates/ivl_lines/src/begun_line.rt.
//! The line that is being read.

#[allow(unused_imports)]
use crate::rattle::prelude::*;
use crate::rattle::std::alloc::{AllocError, Global};

/// The most bytes of a line for which there always is memory.
pub const ROOM: usize = 65536;

/// What was read of a line that has not ended. It is lost once there is no memory for its bytes: no
/// more of them are kept. A contract sees the bytes, or `None` if the line is lost.
pub struct BegunLine {
    bytes: Vec<u8>,
    is_lost: bool,
}

impl BegunLine {
    /// Returns a line without bytes. Allocates the room that each line has.
    pub fn new(alloc: Global) -> Result<BegunLine, AllocError> {
        Ok(BegunLine {
            bytes: Vec::with_capacity(alloc, ROOM)?,
            is_lost: false,
        })
    }

    /// Returns whether the line has no byte yet.
    pub fn is_empty(&self) -> bool {
        !self.is_lost && self.bytes.is_empty()
    }

    /// Returns the bytes of the line, or `None` if it is lost.
    pub fn bytes(&self) -> Option<&[u8]> {
        if self.is_lost {
            return None;
        }
        Some(&self.bytes)
    }

    /// Adds bytes to the line, or loses it if there is no memory for them. What it held is then given
    /// back.
    pub fn extend(&mut self, bytes: &[u8]) {
        if self.is_lost {
            return;
        }
        if self.bytes.extend_from_slice(bytes).is_err() {
            self.is_lost = true;
            empty(&mut self.bytes);
        }
    }

    /// Begins a line without bytes. Gives back the memory that only a long line needs.
    pub fn clear(&mut self) {
        self.is_lost = false;
        empty(&mut self.bytes);
    }
}

// Drops the bytes, and gives back what is more than the room that each line has.
fn empty(bytes: &mut Vec<u8>) {
    bytes.clear();
    bytes.shrink_to(ROOM);
}
