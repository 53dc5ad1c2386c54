// Written by bindings/rust/extract from crates/ivl_lines/src/session.rt.
//! A session: reads lines, has each answered, and writes the answers.

#[allow(unused_imports)]
use crate::rattle::prelude::*;
use crate::proved::ivl_lines::begun_line::BegunLine;
use crate::rattle::std::alloc::{AllocError, Global};
use crate::rattle::std::io;
use crate::rattle::std::io::{ErrorKind, Read, Write};

/// Why a session ended before its input did.
#[derive(Clone, Copy, Debug, PartialEq, Eq)]
pub enum SessionFault {
    /// A read failed.

    Read,
    /// A write or a flush failed.

    Write,
    /// An allocation failed.

    Memory,
}

impl core::fmt::Display for SessionFault {
    fn fmt(&self, f: &mut core::fmt::Formatter<'_>) -> core::fmt::Result {
        match self {
            Self::Read => write!(f, "read failed"),
            Self::Write => write!(f, "write failed"),
            Self::Memory => write!(f, "out of memory"),
        }
    }
}

impl core::error::Error for SessionFault {}

impl From<AllocError> for SessionFault {
    fn from(_: AllocError) -> SessionFault {
        SessionFault::Memory
    }
}

/// What answers the lines of a session, and keeps the state between them.
pub trait Answers {
    /// Returns whether the answer to a line may take long, so that what was answered before it is
    /// flushed first.
    fn may_take_long(&self, line: &[u8]) -> bool;

    /// Answers a line, which is given without its newline.
    ///
    /// # Errors
    ///
    /// Fails only if a write failed, which ends the session.
    fn answer<W: Write>(&mut self, line: &[u8], writer: &mut W) -> io::Result<()>;

    /// Returns the answer to a line that is lost: there was no memory for its bytes. Does not
    /// allocate.
    fn answer_to_lost(&self) -> &'static [u8];
}

// The most bytes that one read may return.
const PIECE: usize = 65536;

/// Has each line of the input answered. What is written is flushed before each read, before each
/// line that may take long, and at the end. Linear in the bytes that are read, beside the answers.
///
/// A line is what stands between newlines; what follows the last newline is a line too. It is kept
/// only if it does not end in the piece that it begins in. A line for whose bytes there is no memory
/// is lost: it has more than 65,536 bytes, is answered with `answer_to_lost` at its end, and changes
/// nothing.
///
/// # Errors
///
/// `Read` if a read failed, or the reader still returned bytes after 2^64 - 1 reads; an interrupted
/// read is repeated. `Write` if a write or a flush failed. `Memory` if there is no memory for the
/// first 65,536 bytes of a line, before anything is read or written.
pub fn serve<A: Answers, R: Read, W: Write>(
    alloc: Global,
    answers: &mut A,
    reader: &mut R,
    writer: &mut W,
) -> Result<(), SessionFault> {
    let mut line = BegunLine::new(alloc)?;
    let mut piece = [0u8; PIECE];
    'reads: for _ in 0..u64::MAX {
        flush(writer)?;
        match reader.read(&mut piece) {
            Ok(0) => return finish(answers, &line, writer),
            Ok(count) => answer_piece(answers, &mut line, &piece[..count], writer)?,
            Err(error) => {
                if error.kind() != ErrorKind::Interrupted {
                    return Err(SessionFault::Read);
                }
            }
        }
    }
    Err(SessionFault::Read)
}

fn flush<W: Write>(writer: &mut W) -> Result<(), SessionFault> {
    if writer.flush().is_err() {
        return Err(SessionFault::Write);
    }
    Ok(())
}

// Answers the last line, which no newline ended.
fn finish<A: Answers, W: Write>(
    answers: &mut A,
    last: &BegunLine,
    writer: &mut W,
) -> Result<(), SessionFault> {
    answer_begun(answers, last, writer)?;
    flush(writer)
}

// Answers the lines that a newline of the piece ends, and keeps what comes after the last newline.
fn answer_piece<A: Answers, W: Write>(
    answers: &mut A,
    begun: &mut BegunLine,
    piece: &[u8],
    writer: &mut W,
) -> Result<(), SessionFault> {
    let mut rest = piece;
    while let Some((bytes, after)) = split_line(rest) {
        answer_ended(answers, begun, bytes, writer)?;
        rest = after;
    }
    begun.extend(rest);
    Ok(())
}

// The bytes before the first newline and those after it, or `None` if there is no newline.
fn split_line(bytes: &[u8]) -> Option<(&[u8], &[u8])> {
    let at = bytes.iter().position(|byte| *byte == b'\n')?;
    Some((&bytes[..at], &bytes[at + 1..]))
}

// Answers the line that has begun in earlier pieces and ends with these bytes, and begins the next.
fn answer_ended<A: Answers, W: Write>(
    answers: &mut A,
    begun: &mut BegunLine,
    bytes: &[u8],
    writer: &mut W,
) -> Result<(), SessionFault> {
    if begun.is_empty() {
        return answer_seen(answers, bytes, writer);
    }
    begun.extend(bytes);
    answer_begun(answers, begun, writer)?;
    begun.clear();
    Ok(())
}

// Answers a line, or says that it is lost.
fn answer_begun<A: Answers, W: Write>(
    answers: &mut A,
    begun: &BegunLine,
    writer: &mut W,
) -> Result<(), SessionFault> {
    match begun.bytes() {
        Some(line) => answer_seen(answers, line, writer),
        None => match writer.write_all(answers.answer_to_lost()) {
            Ok(()) => Ok(()),
            Err(_) => Err(SessionFault::Write),
        },
    }
}

// Answers a line. What was answered before is seen while a line that may take long is answered.
fn answer_seen<A: Answers, W: Write>(
    answers: &mut A,
    line: &[u8],
    writer: &mut W,
) -> Result<(), SessionFault> {
    if answers.may_take_long(line) {
        flush(writer)?;
    }
    match answers.answer(line, writer) {
        Ok(()) => Ok(()),
        Err(_) => Err(SessionFault::Write),
    }
}
