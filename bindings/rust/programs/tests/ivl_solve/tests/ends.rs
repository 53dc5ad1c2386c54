// Written by bindings/rust/extract from crates/ivl_solve/src/tests/ends.rt.
//! Sessions over readers and writers that fail or give little, and sessions that run out of memory.
use crate::host::prelude::*;
use super::keys;
use intervallum_programs::proved::ivl_store_lines::{SessionFault, session};
use crate::host::std::alloc::Global;
use crate::host::std::io;
use crate::host::std::io::{ErrorKind, Read, Write};
use crate::host::std::process::Abort;
use crate::host::std::random::RandomSource;
use crate::host::std::test::Fail;

// Gives its text one byte a read. With a `failure`, the read after the text fails with it.
struct Slow<'a> {
    text: &'a [u8],
    failure: Option<ErrorKind>,
}

impl<'a> Read for Slow<'a> {
    fn read(&mut self, buf: &mut [u8]) -> io::Result<usize> {
        if self.text.is_empty()
            && let Some(kind) = self.failure
        {
            return Err(io::Error::from(kind));
        }
        let count = buf.len().min(1);
        self.text.read(&mut buf[..count])
    }
}

// A session over this reader ends so, and has then written these answers.
fn check_reads(
    rt: &(impl Alloc<A = Global> + RandomSource + Abort),
    mut reader: Slow<'_>,
    ended: Result<(), SessionFault>,
    answers: &[u8],
) {
    let mut written = Vec::new(rt.alloc());
    let end = session(rt.alloc(), keys(rt), &mut reader, &mut written);
    assert_eq!(rt; (end, written.as_slice()), (ended, answers));
}

#[test]
fn a_byte_a_read() { let rt = HostRuntime;
    let reader = Slow {
        text: b"var x 1 9\ncut x 2 5\nshow",
        failure: None,
    };
    check_reads(&rt, reader, Ok(()), b"ok\nok\nx [2..5]\nok\n");
}

#[test]
fn a_failed_read() { let rt = HostRuntime;
    let reader = Slow {
        text: b"var x 1 9\nshow",
        failure: Some(ErrorKind::BrokenPipe),
    };
    check_reads(&rt, reader, Err(SessionFault::Read), b"ok\n");
}

// Takes some bytes, and then fails. If it has no room left, a flush fails too.
struct Full {
    room: usize,
}

impl Write for Full {
    fn write(&mut self, buf: &[u8]) -> io::Result<usize> {
        let count = buf.len().min(self.room);
        if count == 0 {
            return Err(io::Error::from(ErrorKind::StorageFull));
        }
        self.room -= count;
        Ok(count)
    }

    fn flush(&mut self) -> io::Result<()> {
        if self.room == 0 {
            return Err(io::Error::from(ErrorKind::StorageFull));
        }
        Ok(())
    }
}

#[test]
fn a_failed_write() { let rt = HostRuntime;
    for room in 0..8 {
        let mut input: &[u8] = b"var x 1 9\nshow\nfrob\n";
        let ended = session(rt.alloc(), keys(&rt), &mut input, &mut Full { room });
        assert_eq!(rt; ended, Err(SessionFault::Write));
    }
}

// Notes how many bytes were written at each of the first flushes.
struct Noted {
    written: usize,
    flushes: [usize; 6],
    count: usize,
}

impl Write for Noted {
    fn write(&mut self, buf: &[u8]) -> io::Result<usize> {
        self.written = self.written.saturating_add(buf.len());
        Ok(buf.len())
    }

    fn flush(&mut self) -> io::Result<()> {
        if let Some(noted) = self.flushes.get_mut(self.count) {
            *noted = self.written;
        }
        self.count = self.count.saturating_add(1);
        Ok(())
    }
}

// The lines that narrow domains or search.
const LONG_LINES: [&str; 10] = [
    "cut x 2 5",
    "sum x y z",
    "x <= y",
    "x + 0 = y",
    "different x y",
    "go on",
    "solve",
    "count",
    "min x",
    "max x",
];

// What is answered is flushed before a line that may take long, though all lines come by one read; then before the next
// read, and at the end. Other lines wait for none.
#[test]
fn flushed_before_a_line_that_may_take_long() -> Result<(), Fail> { let rt = HostRuntime;
    for line in &LONG_LINES {
        let lines = format!(in rt.alloc(); "var x 1 9\nvar y 1 9\nvar z 1 9\n{line}\nlimit 9\n")?;
        let mut input = lines.as_str().as_bytes();
        let mut writer = Noted {
            written: 0,
            flushes: [0; 6],
            count: 0,
        };
        let ended = session(rt.alloc(), keys(&rt), &mut input, &mut writer);
        assert_eq!(rt;
            (ended, writer.count, writer.flushes[0], writer.flushes[1]),
            (Ok(()), 4, 0, 9),
            "at {line}"
        );
    }
    Ok(())
}

// So too before a rule of a variable that has the name of a line that is quick.
#[test]
fn flushed_before_a_rule_of_any_name() { let rt = HostRuntime;
    let mut input: &[u8] = b"var show 1 9\nvar y 1 9\nshow <= y\nlimit 9\n";
    let mut writer = Noted {
        written: 0,
        flushes: [0; 6],
        count: 0,
    };
    let ended = session(rt.alloc(), keys(&rt), &mut input, &mut writer);
    assert_eq!(rt; (ended, writer.count, writer.flushes[1]), (Ok(()), 4, 6));
}

// If one allocation fails, as under `rt try --test --fail-alloc N`, either the session ends with `Memory`,
// or one line is answered with out of memory, as an error or as unfinished.
#[test]
fn one_refused_request() -> Result<(), Fail> { let rt = HostRuntime;
    let mut input: &[u8] =
        b"var x 1 9\nvar y 1 9\nvar z 11 11\nsum x y z\ncut x 2 5\nx + 4 <= y\nx <= y + 9\n\
        different x y z\nshow\ncut x 2 3\nsolve\ncount\n";
    let mut written = Vec::with_capacity(rt.alloc(), 1024)?;
    if let Err(fault) = session(rt.alloc(), keys(&rt), &mut input, &mut written) {
        assert_eq!(rt; fault, SessionFault::Memory);
        return Ok(());
    }
    let refused = written
        .split(|b| *b == b'\n')
        .filter(|line| line.ends_with(b"out of memory".as_slice()))
        .count();
    assert!(rt; refused <= 2);
    if refused == 0 {
        let all: &[u8] = b"ok\nok\nok\nok\nok\nok\nok\nok\nx [2..5]\ny [6..9]\nz [11..11]\nok\nok\n\
            x 2 y 9 z 11\nx 3 y 8 z 11\nok\ncount 2\nok\n";
        assert_eq!(rt; written.as_slice(), all);
    }
    Ok(())
}
