use intervallum_programs::{keep, proved::ivl_ports};
use std::process::ExitCode;

fn main() -> ExitCode {
    keep::main::<ivl_ports::Lines>(ivl_ports::main, &keep::PORTS)
}
