use intervallum_programs::{keep, proved::ivl_solve};
use std::process::ExitCode;

fn main() -> ExitCode {
    keep::main::<ivl_solve::Lines>(ivl_solve::main, &keep::SOLVE)
}
