// Written by bindings/rust/extract from crates/ivl_run/src/tests/memory.rt.
//! Sessions in which one request for memory is refused, as `rt try --test --fail-alloc N` does.
use crate::host::prelude::*;
use crate::tests::tables::EVERY_COMMAND;
use crate::tests::{assert_written, write_line};
use intervallum_programs::proved::ivl_calculator_lines::{SessionFault, session};
use crate::host::std::alloc::Global;
use crate::host::std::test::Fail;

// What a session answers to the lines of the table but one, unless an `Err` ends it.
fn answers_without(alloc: Global, left_out: Option<usize>) -> Result<Vec<u8>, SessionFault> {
    let mut input = Vec::new(alloc);
    for (i, (line, _)) in EVERY_COMMAND.iter().enumerate() {
        if left_out != Some(i) {
            write_line(&mut input, line)?;
        }
    }
    let mut written = Vec::with_capacity(alloc, 4096)?;
    session(alloc, &mut input.as_slice(), &mut written)?;
    Ok(written)
}

// The place of the answer that reports that an allocation failed.
fn refused_line(written: &[u8]) -> Option<usize> {
    let text = str::from_utf8(written).unwrap_or("no UTF-8");
    for (place, line) in text.lines().enumerate() {
        if line == "refused 4 memory" {
            return Some(place);
        }
    }
    None
}

// A session runs out of memory, or one command is refused and the others answer as if it had not been there, or all are
// answered.
#[test]
fn one_refused_request() -> Result<(), Fail> { let rt = HostRuntime;
    let written = match answers_without(rt.alloc(), None) {
        Ok(written) => written,
        Err(fault) => {
            assert_eq!(rt; fault, SessionFault::Memory);
            return Ok(());
        }
    };
    let Some(refused) = refused_line(&written) else {
        assert_written(&rt, &written, EVERY_COMMAND);
        return Ok(());
    };
    let Ok(others) = answers_without(rt.alloc(), Some(refused)) else {
        assert!(rt; false, "a second request was refused");
        return Ok(());
    };
    let mut rest = others.split(|b| *b == b'\n');
    for (i, line) in written.split(|b| *b == b'\n').enumerate() {
        if i != refused {
            assert_eq!(rt; Some(line), rest.next(), "after line {i}");
        }
    }
    assert!(rt; rest.next().is_none());
    Ok(())
}
