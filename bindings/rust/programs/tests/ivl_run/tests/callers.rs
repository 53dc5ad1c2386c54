// Written by bindings/rust/extract from crates/ivl_run/src/tests/callers.rt.
//! A caller of a session, with a reader and a writer whose contracts name their bytes.
use crate::host::prelude::*;
use intervallum_programs::proved::ivl_calculator_lines::{SessionFault, session};
use crate::host::std::alloc::Global;
use crate::host::std::test::Fail;

/// What a session writes for its input is the text for the lines of it.
fn written_for(alloc: Global, input: &[u8]) -> Result<Vec<u8>, SessionFault> {
    let mut reader = input;
    let mut written = Vec::new(alloc);
    session(alloc, &mut reader, &mut written)?;
    Ok(written)
}

#[test]
fn a_session_over_memory() -> Result<(), Fail> { let rt = HostRuntime;
    let written = written_for(rt.alloc(), b"set a 5 6\nshow a");
    assert!(rt; written.is_ok_and(|text| text.as_slice() == b"ok\n[5..6]\n".as_slice()));
    Ok(())
}
