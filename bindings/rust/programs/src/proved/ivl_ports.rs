// Written by bindings/rust/extract from crates/ivl_ports/src/main.rt.
//! Hands out TCP ports from 1024 to 65535, one request per line: `take 8` takes the eight lowest consecutive free
//! ports, `give 1024 1031` gives ports back, `free` prints the free ports.
//!
//! ```text
//! take 8              [1024..1031]
//! take 2              [1032..1033]
//! give 1024 1031      ok
//! free                64510 free: {[1024..1031][1034..65535]}
//! ```

#[allow(unused_imports)]
use crate::rattle::prelude::*;

mod helps;
mod ports;

use crate::proved::ivl_lines::{Program, SessionFault, run};
use crate::rattle::std::io::{Read, Write};
use crate::rattle::std::process::ExitCode;

const HELP: &str = "\
Hands out the ports from 1024 to 65535: reads one line at a time from standard input, and answers each.

  take COUNT               takes the lowest COUNT consecutive free ports: [1024..1031], or none
  take COUNT at PORT       takes those from PORT on, or none if one of them is not free
  take COUNT above PORT    takes the lowest COUNT consecutive free ports above PORT, or none
  give FIRST LAST          gives ports back: ok, or some of them are free, and then nothing changes
  free                     how many ports are free, and which
  help, help COMMAND       the commands, or what one does

A line that begins with # is a comment. --version prints the version.
";

/// The lines of this program.
pub struct Lines;

impl Program for Lines {
    const NAME: &'static str = "ivl_ports";

    fn session<R: Read, W: Write>(
        rt: &HostRuntime,
        reader: &mut R,
        writer: &mut W,
    ) -> Result<(), SessionFault> {
        ports::session(rt.alloc(), reader, writer)
    }
}

pub fn main(rt: HostRuntime) -> ExitCode {
    run::<Lines>(&rt, HELP)
}
