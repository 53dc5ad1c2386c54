// Written by bindings/rust/extract from crates/ivl_run/src/tests.rt.
//! Sessions over memory. Readers and writers that fail or wait are in `ends`.
//!
//! The proof of a test pays for each assertion and for each `?`, so that the tests share a few functions that have them.
use crate::host::prelude::*;
mod callers;
mod ends;
mod memory;
mod tables;
mod words;

use intervallum_programs::proved::ivl_calculator_lines::session;
use intervallum_programs::proved::ivl_lines::{SessionFault, outcome};
use crate::host::std::alloc::{AllocError, Global};
use crate::host::std::process::Abort;
use crate::host::std::test::Fail;

// Adds a line and the newline that ends it.
fn write_line(text: &mut Vec<u8>, line: &str) -> Result<(), AllocError> {
    text.extend_from_slice(line.as_bytes())?;
    text.push(b'\n')?;
    Ok(())
}

// Asserts that a session has written the answers of the table, one per line.
fn assert_written(rt: &impl Abort, written: &[u8], table: &[(&str, &str)]) {
    let text = str::from_utf8(written).unwrap_or("no UTF-8");
    let mut answers = text.lines();
    for (line, answer) in table {
        assert_eq!(rt; answers.next(), Some(*answer), "after `{line}`");
    }
    assert!(rt; answers.next().is_none());
}

// Asserts that a session over these lines ends with its input, and writes these answers.
fn check_session(rt: &(impl Alloc<A = Global> + Abort), lines: &[u8], answers: &[u8]) {
    let mut input = lines;
    let mut written = Vec::new(rt.alloc());
    let ended = session(rt.alloc(), &mut input, &mut written);
    assert_eq!(rt;
        (ended, written.as_slice()),
        (Ok(()), answers),
        "after {lines:?}"
    );
}

// What ends a line, and lines without words: bytes, and what is written for them.
const ENDS_OF_LINES: [(&[u8], &[u8]); 7] = [
    (b"", b""),
    (b"\n  \n\r\n \r\n", b""),
    (b"set a\nsize a\n\nhas  a 0\n", b"ok\n0\nno\n"),
    // One carriage return before the end is dropped, and spaces at both ends are ignored.
    (b"set a 1 2\r\n  show   a  \r\nsize a\r", b"ok\n[1..2]\n2\n"),
    (b"show a \r\r\n", b"bad line\n"),
    // No newline ends the last line.
    (b"set a 5 6\nshow a", b"ok\n[5..6]\n"),
    (b"size a\nnonsense", b"0\nbad line\n"),
];

#[test]
fn ends_of_lines() { let rt = HostRuntime;
    for (lines, answers) in ENDS_OF_LINES {
        check_session(&rt, lines, answers);
    }
}

const BAD_LINES: [&[u8]; 53] = [
    b"nonsense",
    b"Set a",
    b"sets a",
    b"a",
    b"set",
    b"set 1 2",
    b"set a 1",
    b"set a 1 2 3",
    b"set a b c",
    b"set a +1 2",
    b"set a 1 +2",
    b"set a 9223372036854775808 1",
    b"set a -9223372036854775809 1",
    b"set a - 1",
    b"set a --1 1",
    b"set a 1- 1",
    b"set a 1.0 2",
    b"set a 0x1 2",
    b"set a 1,2",
    b"set ab 1 2",
    b"set A 1 2",
    b"set ` 1 2",
    b"set { 1 2",
    b"union a b",
    b"union a b c d",
    b"union a b 1",
    b"has a",
    b"has a b",
    b"has a 1 2",
    b"has 1 a",
    b"size",
    b"show a b",
    b"same a",
    b"comp a",
    b"comp a b c",
    b"comp a 1",
    b"left a b",
    b"left a 1",
    b"left a b c",
    b"left a b 1 2",
    b"left 1 a b",
    b"plus a b 1",
    b"plusv a b c",
    b"plusv a b +1",
    b"low",
    b"low a b",
    b"high 1",
    b"sub a b c",
    b"meets a 1",
    b"\tsize a",
    b"size\ta",
    b"size a\0",
    b"size \xff",
];

#[test]
fn bad_lines() -> Result<(), Fail> { let rt = HostRuntime;
    for line in BAD_LINES {
        let mut input = Vec::from_slice(rt.alloc(), line)?;
        input.extend_from_slice(b"\nsize a\n")?;
        check_session(&rt, &input, b"bad line\n0\n");
    }
    Ok(())
}

// A line of a megabyte, with lines before and after it.
#[test]
fn a_long_line() -> Result<(), Fail> { let rt = HostRuntime;
    let mut input = Vec::from_slice(rt.alloc(), b"set a 1 4\nhas ")?;
    for _ in 0..1000 {
        input.extend_from_slice(&[b' '; 1000])?;
    }
    input.extend_from_slice(b"a 4\nsize a\n")?;
    check_session(&rt, &input, b"ok\nyes\n4\n");
    Ok(())
}

// A set of 200,000 pairs, on a line of a megabyte.
#[test]
fn a_long_list_of_pairs() -> Result<(), Fail> { let rt = HostRuntime;
    let mut input = Vec::from_slice(rt.alloc(), b"set a")?;
    for _ in 0..100_000 {
        input.extend_from_slice(b" 1 4 -9 -7")?;
    }
    input.extend_from_slice(b"\nsize a\n")?;
    check_session(&rt, &input, b"ok\n7\n");
    Ok(())
}

#[test]
fn outcomes() { let rt = HostRuntime;
    for (ended, status) in [
        (Ok(()), (0, "")),
        (Err(SessionFault::Read), (1, "read failed")),
        (Err(SessionFault::Write), (1, "write failed")),
        (Err(SessionFault::Memory), (1, "out of memory")),
    ] {
        assert_eq!(rt; outcome(&ended), status);
    }
}

// A fault has a text of its own, beside the line that the program prints for it.
#[test]
fn texts_of_faults() -> Result<(), Fail> { let rt = HostRuntime;
    for (fault, text) in [
        (SessionFault::Read, "read failed"),
        (SessionFault::Write, "write failed"),
        (SessionFault::Memory, "out of memory"),
    ] {
        let printed = format!(in rt.alloc(); "{fault}")?;
        assert_eq!(rt; printed.as_str(), text);
    }
    Ok(())
}
