//! Timing of calls.

use crate::fault::Result;
use crate::inputs::Inputs;
use crate::measures::Measure;
use intervallum::proved::Global;
use std::time::{Duration, Instant};

/// How long a measure lasts.
#[derive(Clone, Copy)]
pub struct Limits {
    /// A repetition lasts at least that long.
    least: Duration,
    /// A call that lasts longer is made once.
    once: Duration,
}

impl Limits {
    pub fn new(least: Duration) -> Limits {
        Limits { least, once: Duration::from_secs(2) }
    }
}

/// Prints a line for each call at sets of `n` runs: `name n ns_per_operation runs size`.
pub fn print_times(n: u32, limits: &Limits) -> Result<()> {
    let inputs = Inputs::new(Global, n)?;
    for &(measure, name) in Measure::ALL {
        if measure.is_for(n) {
            let time = least_time(measure, &inputs, limits)?;
            println!("{name} {n} {time} {}", measure.run(&inputs, 1)?);
        }
    }
    Ok(())
}

/// The least nanoseconds that an operation takes, of three repetitions.
fn least_time(measure: Measure, inputs: &Inputs, limits: &Limits) -> Result<u128> {
    let once = duration(measure, inputs, 1)?;
    if once > limits.once {
        return Ok(per_operation(once, measure, inputs, 1));
    }
    let (count, mut time) = long_enough(measure, inputs, limits, once)?;
    for _ in 0..2 {
        time = time.min(duration(measure, inputs, count)?);
    }
    Ok(per_operation(time, measure, inputs, count))
}

/// A number of calls that lasts long enough, and how long it lasted; `once` is how long one call lasts.
fn long_enough(measure: Measure, inputs: &Inputs, limits: &Limits, once: Duration) -> Result<(u64, Duration)> {
    let mut count = 1u64;
    let mut time = once;
    for _ in 0..40 {
        if time >= limits.least {
            break;
        }
        count = count.saturating_mul(2);
        time = duration(measure, inputs, count)?;
    }
    Ok((count, time))
}

/// How long a number of calls takes.
fn duration(measure: Measure, inputs: &Inputs, count: u64) -> Result<Duration> {
    if measure.is_of_making_alone() {
        return duration_of_making(measure, inputs, count);
    }
    let start = Instant::now();
    measure.run(inputs, count)?;
    Ok(start.elapsed())
}

/// How long a number of calls takes, without what it takes to drop their answers.
fn duration_of_making(measure: Measure, inputs: &Inputs, count: u64) -> Result<Duration> {
    let mut time = Duration::ZERO;
    for _ in 0..count {
        time = time.saturating_add(duration_of_making_once(measure, inputs)?);
    }
    Ok(time)
}

fn duration_of_making_once(measure: Measure, inputs: &Inputs) -> Result<Duration> {
    let start = Instant::now();
    let made = measure.make(inputs)?;
    let time = start.elapsed();
    drop(made);
    Ok(time)
}

fn per_operation(time: Duration, measure: Measure, inputs: &Inputs, count: u64) -> u128 {
    let operations = count.saturating_mul(measure.operations(inputs));
    time.as_nanos() / u128::from(operations.max(1))
}
