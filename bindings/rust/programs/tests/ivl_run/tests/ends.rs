// Written by bindings/rust/extract from crates/ivl_run/src/tests/ends.rt.
//! Sessions over readers and writers that fail, wait or take little.
use crate::host::prelude::*;
use intervallum_programs::proved::ivl_calculator_lines::session;
use intervallum_programs::proved::ivl_lines::{SessionFault, outcome};
use crate::host::std::alloc::Global;
use crate::host::std::cell::Cell;
use crate::host::std::io;
use crate::host::std::io::{BufWriter, ErrorKind, Read, Write};
use crate::host::std::process::Abort;
use crate::host::std::test::Fail;

// Gives so many bytes of its text per read, and at least one, after as many interrupted reads as `times` says. With a
// `failure`, the read after the text fails with it.
struct Slow<'a> {
    text: &'a [u8],
    count: usize,
    times: usize,
    met: usize,
    failure: Option<ErrorKind>,
}

impl<'a> Slow<'a> {
    fn new(text: &'a [u8], count: usize) -> Slow<'a> {
        Slow {
            text,
            count,
            times: 0,
            met: 0,
            failure: None,
        }
    }
}

impl<'a> Read for Slow<'a> {
    fn read(&mut self, buf: &mut [u8]) -> io::Result<usize> {
        if self.met < self.times {
            self.met += 1;
            return Err(io::Error::from(ErrorKind::Interrupted));
        }
        self.met = 0;
        if self.text.is_empty()
            && let Some(kind) = self.failure
        {
            return Err(io::Error::from(kind));
        }
        let count = buf.len().min(self.count.max(1));
        self.text.read(&mut buf[..count])
    }
}

// A session over this reader ends so, for this status of the program, and has then written these answers.
fn check_reads(
    rt: &(impl Alloc<A = Global> + Abort),
    mut reader: Slow<'_>,
    ended: Result<(), SessionFault>,
    status: (u8, &str),
    answers: &[u8],
) {
    let mut written = Vec::new(rt.alloc());
    let end = session(rt.alloc(), &mut reader, &mut written);
    assert_eq!(rt;
        (end, outcome(&end), written.as_slice()),
        (ended, status, answers)
    );
}

#[test]
fn a_byte_a_read() -> Result<(), Fail> { let rt = HostRuntime;
    let mut text = Vec::new(rt.alloc());
    let mut wanted = Vec::new(rt.alloc());
    for _ in 0..100 {
        text.extend_from_slice(b"set a 1 2\nsize a\nnonsense\n")?;
        wanted.extend_from_slice(b"ok\n2\nbad line\n")?;
    }
    text.extend_from_slice(b"show a")?;
    wanted.extend_from_slice(b"[1..2]\n")?;
    check_reads(&rt, Slow::new(&text, 1), Ok(()), (0, ""), &wanted);
    Ok(())
}

#[test]
fn a_failed_read() { let rt = HostRuntime;
    let reader = Slow {
        failure: Some(ErrorKind::BrokenPipe),
        ..Slow::new(b"set a 1 2\nshow a", 1)
    };
    let ended = Err(SessionFault::Read);
    check_reads(&rt, reader, ended, (1, "read failed"), b"ok\n");
}

#[test]
fn an_interrupted_read_is_read_again() { let rt = HostRuntime;
    for times in [1, 101, 1000] {
        let reader = Slow {
            times,
            ..Slow::new(b"set a 1 2\nshow a\nsize a\n", 3)
        };
        check_reads(&rt, reader, Ok(()), (0, ""), b"ok\n[1..2]\n2\n");
    }
}

// Takes some bytes, and then fails.
struct Full {
    taken: Vec<u8>,
    room: usize,
}

impl Write for Full {
    fn write(&mut self, buf: &[u8]) -> io::Result<usize> {
        let count = buf.len().min(self.room);
        if count == 0 {
            return Err(io::Error::from(ErrorKind::StorageFull));
        }
        self.taken.extend_from_slice(&buf[..count])?;
        self.room -= count;
        Ok(count)
    }

    fn flush(&mut self) -> io::Result<()> {
        Ok(())
    }
}

#[test]
fn a_failed_write() { let rt = HostRuntime;
    let mut input: &[u8] = b"set a 1 2\nshow a\n";
    let mut writer = Full {
        taken: Vec::new(rt.alloc()),
        room: 5,
    };
    let ended = session(rt.alloc(), &mut input, &mut writer);
    let status = (1, "write failed");
    assert_eq!(rt;
        (ended, outcome(&ended)),
        (Err(SessionFault::Write), status)
    );
    assert_eq!(rt; writer.taken.as_slice(), b"ok\n[1".as_slice());
}

// What a buffer holds is written before the session ends, so that its failure is returned.
#[test]
fn a_failed_write_behind_a_buffer() -> Result<(), Fail> { let rt = HostRuntime;
    let mut input: &[u8] = b"set a 1 2\nshow a";
    let full = Full {
        taken: Vec::new(rt.alloc()),
        room: 0,
    };
    let mut writer = BufWriter::new(rt.alloc(), full)?;
    let ended = session(rt.alloc(), &mut input, &mut writer);
    assert_eq!(rt; ended, Err(SessionFault::Write));
    Ok(())
}

// Counts what is flushed.
struct Flushed<'a> {
    written: usize,
    flushed: &'a Cell<usize>,
}

impl<'a> Write for Flushed<'a> {
    fn write(&mut self, buf: &[u8]) -> io::Result<usize> {
        self.written = self.written.saturating_add(buf.len());
        Ok(buf.len())
    }

    fn flush(&mut self) -> io::Result<()> {
        self.flushed.set(self.written);
        Ok(())
    }
}

// Gives one piece per read, and fails if the answers to the lines before it are not yet flushed: `answered` has their
// numbers of bytes.
struct Pieces<'a> {
    pieces: &'a [&'a [u8]],
    answered: &'a [usize],
    given: usize,
    flushed: &'a Cell<usize>,
}

impl<'a> Read for Pieces<'a> {
    fn read(&mut self, buf: &mut [u8]) -> io::Result<usize> {
        let place = self.given;
        if place >= self.pieces.len() || place >= self.answered.len() {
            return Ok(0);
        }
        let piece = self.pieces[place];
        if self.flushed.get() != self.answered[place] || buf.len() < piece.len() {
            return Err(io::Error::from(ErrorKind::WouldBlock));
        }
        self.given = place + 1;
        buf[..piece.len()].copy_from_slice(piece);
        Ok(piece.len())
    }
}

// A session over these pieces flushes all that it has written.
fn check_flushes(
    rt: &(impl Alloc<A = Global> + Abort),
    pieces: &[&[u8]],
    answered: &[usize],
    all: usize,
) {
    let flushed = Cell::new(0);
    let mut reader = Pieces {
        pieces,
        answered,
        given: 0,
        flushed: &flushed,
    };
    let mut writer = Flushed {
        written: 0,
        flushed: &flushed,
    };
    let ended = session(rt.alloc(), &mut reader, &mut writer);
    assert_eq!(rt; (ended, flushed.get()), (Ok(()), all));
}

// Also before a read while a part of a line is kept, and after the last line, which no newline ends.
#[test]
fn answers_are_flushed_before_each_read_and_at_the_end() { let rt = HostRuntime;
    check_flushes(&rt, &[b"size a"], &[0], 2);
    check_flushes(&rt, &[b"size a\nsi", b"ze a\n"], &[0, 2], 4);
    check_flushes(
        &rt,
        &[b"size a\nsize a\nsize", b" a\nsi", b"ze a"],
        &[0, 4, 6],
        8,
    );
}

// The last read gives nothing, which ends the input.
#[test]
fn each_line_is_answered_before_the_next_read() { let rt = HostRuntime;
    check_flushes(
        &rt,
        &[b"size a\n", b"size a\n", b"size a\n", b""],
        &[0, 2, 4, 6],
        6,
    );
}
