//! Times the calls of the proved face on sets of `i64`.
//!
//! Without arguments, prints the result of each call at two input sizes, and no times. With the arguments `time SECONDS
//! GREATEST_N`, prints one line per call: `name n ns_per_operation runs size`. With the argument `million`, prints the time of one
//! union of two sets of a million runs, and the peak memory. With the argument `paged`, prints one line per edit or question of a
//! set in pages, and of one in a list, at 1,000 to 1,000,000 runs: `name n ns_per_call answer`, and then one per operation of two
//! of them: `name n ns_per_run answer`. With the argument `maps`, prints one line per call of the root's map at 1,000 to 1,000,000
//! entries, and of a `BTreeMap` beside it: `name n ns_per_call answer`. With the arguments `store FILE`, prints the time of an instance of
//! the domain store.
//!
//! Where the library has its feature `json`, and `--cfg json` says so, three calls of JSON are measured too.

mod calls;
mod edits;
mod expressions;
mod fault;
mod fresh;
mod inputs;
#[cfg_attr(not(json), path = "no_json.rs")]
mod json;
mod many_runs;
mod maps;
mod measures;
mod stores;
mod timing;
mod whole_sets;

use crate::fault::Result;
use inputs::Inputs;
use intervallum::proved::Global;
use measures::Measure;
use std::env;
use std::time::Duration;
use timing::Limits;

/// How many runs the sets have whose calls are timed.
const SIZES: [u32; 5] = [10, 100, 300, 1_000, 10_000];

/// Prints what each call answers: its runs and its size, or its one number.
fn print_answers(n: u32) -> Result<()> {
    let inputs = Inputs::new(Global, n)?;
    for &(measure, name) in Measure::ALL {
        if measure.is_for(n) {
            println!("{name} {n} {}", measure.run(&inputs, 1)?);
        }
    }
    Ok(())
}

/// Prints how long each call takes, at least so many seconds each, at sets of up to so many runs.
fn print_times(seconds: Option<&str>, greatest: Option<&str>) -> Result<()> {
    let limits = Limits::new(Duration::try_from_secs_f64(seconds.ok_or("give the seconds")?.parse()?)?);
    let greatest: u32 = greatest.ok_or("give the greatest n")?.parse()?;
    for n in SIZES.into_iter().filter(|&n| n <= greatest) {
        timing::print_times(n, &limits)?;
    }
    Ok(())
}

fn print_all_answers() -> Result<()> {
    print_answers(10)?;
    print_answers(100)?;
    many_runs::print_answers()?;
    whole_sets::print_answers()?;
    maps::print_answers()?;
    stores::print_answers()
}

fn print_paged_times() -> Result<()> {
    many_runs::print_times()?;
    whole_sets::print_times()
}

fn main() -> Result<()> {
    let words: std::vec::Vec<String> = env::args().skip(1).collect();
    let word = |index: usize| words.get(index).map(String::as_str);
    match word(0) {
        None => print_all_answers(),
        Some("million") => fresh::print_million(),
        Some("maps") => maps::print_times(),
        Some("paged") => print_paged_times(),
        Some("store") => stores::print_times(word(1).ok_or("give the file of an instance")?),
        Some("time") => print_times(word(1), word(2)),
        Some(_) => Err("the arguments are: time SECONDS GREATEST_N, million, paged, maps, or store FILE".into()),
    }
}
