// Written by bindings/rust/extract from crates/ivl_ranges/src/main.rt.
//! Checks which accesses `a[i + k]` are within bounds, one request per line: `i 0..7` and `k -1..1 5..5` give the
//! values that `i` and `k` may have, `length 10` gives the length of the array, and `check` prints the result.
//!
//! ```text
//! i 0..7              ok
//! k -1..1             ok
//! length 10           ok
//! check               safe for i in [1..7] alone
//! ```

#[allow(unused_imports)]
use crate::rattle::prelude::*;

mod access;
mod engine;
mod helps;
mod reading;
mod reply;
mod state;

use crate::proved::ivl_lines::{Program, SessionFault, run};
use crate::rattle::std::io::{Read, Write};
use crate::rattle::std::process::ExitCode;

const HELP: &str = "\
Says whether every access a[i + k] is within bounds: reads one line at a time from standard input, and answers each.

  i -1..1 5..5         the values that i may have: ranges, the lower end first, in any order
  k -1..1 5..5         the values that k may have
  length 10            the length of the array
  check                safe; or the values of i that are safe for every k: safe for i in [1..7] alone, or safe for no i
  help, help COMMAND   the commands, or what one does

A line that begins with # is a comment. --version prints the version.
";

/// The lines of this program.
pub struct Lines;

impl Program for Lines {
    const NAME: &'static str = "ivl_ranges";

    fn session<R: Read, W: Write>(
        rt: &HostRuntime,
        reader: &mut R,
        writer: &mut W,
    ) -> Result<(), SessionFault> {
        engine::session(rt.alloc(), reader, writer)
    }
}

pub fn main(rt: HostRuntime) -> ExitCode {
    run::<Lines>(&rt, HELP)
}
