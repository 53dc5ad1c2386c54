// Written by bindings/rust/extract from crates/ivl_solve/src/main.rt.
//! Narrows the domains of variables by rules between them: reads one request per line from standard input,
//! and answers each on standard output.

#[allow(unused_imports)]
use crate::rattle::prelude::*;
use crate::proved::ivl_lines::{Program, SessionFault, run};
use crate::rattle::std::collections::hash_map::RandomState;
use crate::rattle::std::io::{Read, Write};
use crate::rattle::std::process::ExitCode;

const HELP: &str = "\
Narrows the domains of variables by rules: reads one line at a time from standard input, and answers each.

  var x l u l u ..     a new variable, whose domain is the union of the pairs
  cut x l u l u ..     x keeps the members of its domain that are in the union of the pairs, one or more
  x + n <= y           from now on, for a number n; also x <= y, x <= y + n, and all three by != and by =
  x + y = z            from now on; also sum x y z
  different x y ..     no two of them have the same number, from now on
  limit n              what the narrowings of each later line may count for; 1000000 at the start
  go on                narrows further
  show                 the domain of each variable
  show x               the domain of this one
  solve                all solutions, one per line; solve n: n of them at most
  count                how many solutions there are
  min x, max x         a solution in which x has its least, its greatest number

Each is answered `ok`, `unfinished` if the limit stopped it, or `no solution` once a domain is empty. A search prints
what it found before that; `solve n` ends with `more possible` where there may be others.
--version prints the version.
";

/// The lines of this program.
pub struct Lines;

impl Program for Lines {
    const NAME: &'static str = "ivl_solve";

    fn session<R: Read, W: Write>(
        rt: &HostRuntime,
        reader: &mut R,
        writer: &mut W,
    ) -> Result<(), SessionFault> {
        let Ok(keys) = RandomState::new(rt) else {
            return Err(SessionFault::Read);
        };
        crate::proved::ivl_store_lines::session(rt.alloc(), keys, reader, writer)
    }
}

pub fn main(rt: HostRuntime) -> ExitCode {
    run::<Lines>(&rt, HELP)
}
