// Written by bindings/rust/extract from crates/ivl_blocks/src/main.rt.
//! Keeps the free blocks of a disk of 2^40 blocks, one request per line: `take 8` takes the eight lowest consecutive
//! free blocks, `give 8 15` gives blocks back, `free` tells how many are free, `largest` where the longest run of them is.
//!
//! ```text
//! take 8              [0..7]
//! take 2              [8..9]
//! give 0 7            ok
//! free                1099511627774 free in 2 runs
//! largest             [10..1099511627775]
//! ```

#[allow(unused_imports)]
use crate::rattle::prelude::*;

mod blocks;
mod helps;

use crate::proved::ivl_lines::{Program, SessionFault, run};
use crate::rattle::std::io::{Read, Write};
use crate::rattle::std::process::ExitCode;

const HELP: &str = "\
Keeps the free blocks of a disk, from 0 to 1099511627775: reads one line at a time from standard input, and answers each.

  take COUNT               takes the lowest COUNT consecutive free blocks: [0..7], or none
  take COUNT at BLOCK      takes those from BLOCK on, or none if one of them is not free
  take COUNT above BLOCK   takes the lowest COUNT consecutive free blocks above BLOCK, or none
  give FIRST LAST          gives blocks back: ok, or some of them are free, and then nothing changes
  free                     how many blocks are free, and in how many runs
  largest                  the lowest of the longest runs of free blocks, or none
  help, help COMMAND       the commands, or what one does

A line that begins with # is a comment. --version prints the version.
";

/// The lines of this program.
pub struct Lines;

impl Program for Lines {
    const NAME: &'static str = "ivl_blocks";

    fn session<R: Read, W: Write>(
        rt: &HostRuntime,
        reader: &mut R,
        writer: &mut W,
    ) -> Result<(), SessionFault> {
        blocks::session(rt.alloc(), reader, writer)
    }
}

pub fn main(rt: HostRuntime) -> ExitCode {
    run::<Lines>(&rt, HELP)
}
