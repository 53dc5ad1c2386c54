// Written by bindings/rust/extract from crates/ivl_ports/src/ports.rt.
//! The free ports, and what answers the lines of a session.

#[allow(unused_imports)]
use crate::rattle::prelude::*;
use crate::proved::ivl_ports::helps::write_help;
use crate::proved::ivl_allocator::{Fault, all_free, give, is_comment, take, write_fault};
use crate::proved::ivl_lines::{AnswersCommands, SessionFault, next_word, serve};
use crate::proved::ivl_paged::PagedSet;
use crate::rattle::std::alloc::Global;
use crate::rattle::std::io;
use crate::rattle::std::io::{Read, Write};

/// The lowest port.
const FIRST: u64 = 1024;

/// The highest port. `take` asks for no more ports than this.
const LAST: u64 = 65535;

/// The free ports. A contract sees the list of their runs.
pub struct Ports {
    free: PagedSet<u64>,
}

impl AnswersCommands for Ports {
    fn command_may_take_long(&self, _: &[u8]) -> bool {
        false
    }

    fn answer_command<W: Write>(
        &mut self,
        name: &str,
        words: &str,
        writer: &mut W,
    ) -> io::Result<()> {
        match name {
            "take" => take(&mut self.free, FIRST, LAST, LAST, words, writer),
            "give" => give(&mut self.free, FIRST, LAST, words, writer),
            "free" => show(&self.free, words, writer),
            "help" => write_help(writer, words),
            _ if is_comment(name) => Ok(()),
            _ => write_fault(writer, &Fault::Command(name)),
        }
    }
}

/// Answers each line of the input; the ports from 1024 to 65535 are free at first. What is written is flushed before
/// each read and at the end.
///
/// # Errors
///
/// `Read` if a read failed, or the reader still returned bytes after 2^64 - 1 reads; an interrupted read is repeated.
/// `Write` if a write or a flush failed. `Memory` if there is no memory to begin: nothing is then read or written. A line
/// that runs out of memory when it is read or carried out is answered with that, and the session continues.
pub fn session<R: Read, W: Write>(
    alloc: Global,
    reader: &mut R,
    writer: &mut W,
) -> Result<(), SessionFault> {
    let free = all_free(alloc, FIRST, LAST)?;
    serve(alloc, &mut Ports { free }, reader, writer)
}

/// Answers `free`, given the words after it: how many ports are free, and their runs.
fn show<W: Write>(free: &PagedSet<u64>, words: &str, writer: &mut W) -> io::Result<()> {
    match next_word(words) {
        Some(_) => write_fault(writer, &Fault::Form("free")),
        None => write_free(writer, free),
    }
}

/// Writes how many ports are free, and their runs.
fn write_free<W: Write>(writer: &mut W, free: &PagedSet<u64>) -> io::Result<()> {
    free.in_whole();
    writeln!(writer, "{} free: {free}", free.size())
}
