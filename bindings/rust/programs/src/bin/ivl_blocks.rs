use intervallum_programs::{keep, proved::ivl_blocks};
use std::process::ExitCode;

fn main() -> ExitCode {
    keep::main::<ivl_blocks::Lines>(ivl_blocks::main, &keep::BLOCKS)
}
