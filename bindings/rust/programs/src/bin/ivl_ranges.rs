use intervallum_programs::{keep, proved::ivl_ranges};
use std::process::ExitCode;

fn main() -> ExitCode {
    keep::main::<ivl_ranges::Lines>(ivl_ranges::main, &keep::RANGES)
}
