use intervallum_programs::{keep, proved::ivl_calendar};
use std::process::ExitCode;

fn main() -> ExitCode {
    keep::main::<ivl_calendar::Lines>(ivl_calendar::main, &keep::CALENDAR)
}
