use intervallum_programs::{keep, proved::ivl_run};
use std::process::ExitCode;

fn main() -> ExitCode {
    keep::main::<ivl_run::Lines>(ivl_run::main, &keep::RUN)
}
