// Written by bindings/rust/extract from crates/ivl_blocks/src/blocks.rt.
//! The free blocks of a disk, and what answers the lines of a session.

#[allow(unused_imports)]
use crate::rattle::prelude::*;
use crate::proved::ivl_blocks::helps::write_help;
use crate::proved::intervallum::interval::Interval;
use crate::proved::ivl_allocator::{Fault, all_free, give, is_comment, take, write_fault, write_run};
use crate::proved::ivl_lines::{AnswersCommands, SessionFault, next_word, serve};
use crate::proved::ivl_paged::PagedSet;
use crate::rattle::std::alloc::Global;
use crate::rattle::std::io;
use crate::rattle::std::io::{Read, Write};

/// The greatest number of a block; the least is 0.
const LAST: u64 = 1_099_511_627_775;

/// How many blocks there are: 2^40.
const COUNT: u64 = LAST + 1;

/// The free blocks. A contract sees the list of their runs.
pub struct Blocks {
    free: PagedSet<u64>,
}

impl AnswersCommands for Blocks {
    fn command_may_take_long(&self, _: &[u8]) -> bool {
        false
    }

    fn answer_command<W: Write>(
        &mut self,
        name: &str,
        words: &str,
        writer: &mut W,
    ) -> io::Result<()> {
        match name {
            "take" => take(&mut self.free, 0, LAST, COUNT, words, writer),
            "give" => give(&mut self.free, 0, LAST, words, writer),
            "free" => show(&self.free, words, writer),
            "largest" => show_longest(&self.free, words, writer),
            "help" => write_help(writer, words),
            _ if is_comment(name) => Ok(()),
            _ => write_fault(writer, &Fault::Command(name)),
        }
    }
}

/// Answers each line of the input; all 2^40 blocks are free at first. What is written is flushed before
/// each read and at the end.
///
/// # Errors
///
/// `Read` if a read failed, or the reader still returned bytes after 2^64 - 1 reads; an interrupted read is repeated.
/// `Write` if a write or a flush failed. `Memory` if there is no memory to begin: nothing is then read or written. A line
/// that runs out of memory when it is read or carried out is answered with that, and the session continues.
pub fn session<R: Read, W: Write>(
    alloc: Global,
    reader: &mut R,
    writer: &mut W,
) -> Result<(), SessionFault> {
    let free = all_free(alloc, 0, LAST)?;
    serve(alloc, &mut Blocks { free }, reader, writer)
}

/// Answers `free`, given the words after it: how many blocks are free, and in how many runs.
fn show<W: Write>(free: &PagedSet<u64>, words: &str, writer: &mut W) -> io::Result<()> {
    match next_word(words) {
        Some(_) => write_fault(writer, &Fault::Form("free")),
        None => write_free(writer, free),
    }
}

/// Writes how many blocks are free, and in how many runs.
fn write_free<W: Write>(writer: &mut W, free: &PagedSet<u64>) -> io::Result<()> {
    let (size, runs) = (free.size(), free.interval_count());
    let word = word_for(runs);
    writeln!(writer, "{size} free in {runs} {word}")
}

fn word_for(runs: usize) -> &'static str {
    if runs == 1 { "run" } else { "runs" }
}

/// Answers `largest`, given the words after it: the lowest of the longest runs, or `none`.
fn show_longest<W: Write>(free: &PagedSet<u64>, words: &str, writer: &mut W) -> io::Result<()> {
    if next_word(words).is_some() {
        return write_fault(writer, &Fault::Form("largest"));
    }
    match longest(free) {
        Some(run) => write_run(writer, &run),
        None => writer.write_all(b"none\n"),
    }
}

/// Returns the lowest of the longest runs, or `None` if there is none. `O(n / page)` for `n` runs.
fn longest(free: &PagedSet<u64>) -> Option<Interval<u64>> {
    free.in_whole();
    free.longest_run()
}
