// Written by bindings/rust/extract from crates/ivl_ranges/src/engine.rt.
//! What answers the lines of a session.

#[allow(unused_imports)]
use crate::rattle::prelude::*;
use crate::proved::ivl_ranges::helps::{is_comment, write_help};
use crate::proved::ivl_ranges::reply::write_told;
use crate::proved::ivl_ranges::state::Access;
use crate::proved::ivl_lines::{AnswersCommands, SessionFault, serve};
use crate::rattle::std::alloc::Global;
use crate::rattle::std::io;
use crate::rattle::std::io::{Read, Write};

impl AnswersCommands for Access {
    fn command_may_take_long(&self, name: &[u8]) -> bool {
        match name {
            b"i" | b"k" | b"check" => true,
            _ => false,
        }
    }

    fn answer_command<W: Write>(
        &mut self,
        name: &str,
        words: &str,
        writer: &mut W,
    ) -> io::Result<()> {
        match name {
            "help" => write_help(writer, words),
            _ if is_comment(name) => Ok(()),
            _ => write_told(writer, name, &self.carry_out(name, words)),
        }
    }
}

/// Answers each line of the input, about an empty array and no values of `i` and `k` at first. What
/// is written is flushed before each read, before each line of ranges and each check, and at the
/// end.
///
/// # Errors
///
/// `Read` if a read failed, or the reader still returned bytes after 2^64 - 1 reads; an interrupted
/// read is repeated. `Write` if a write or a flush failed. `Memory` if there is no memory to begin:
/// nothing is then read or written. A line that runs out of memory when it is read or carried out is
/// answered with that, and the session continues.
pub fn session<R: Read, W: Write>(
    alloc: Global,
    reader: &mut R,
    writer: &mut W,
) -> Result<(), SessionFault> {
    serve(alloc, &mut Access::new(alloc), reader, writer)
}
