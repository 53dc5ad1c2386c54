//! Single edits and questions of a set in pages, and of one in a list, at up to a million runs.

use crate::fault::Result;
use crate::inputs::{Lists, many_runs};
use crate::measures::Answer;
use intervallum::proved::interval::Interval;
use intervallum::proved::interval_set::IntervalSet;
use intervallum::proved::ivl_paged::PagedSet;
use intervallum::proved::ops::Contains;
use intervallum::proved::{AllocError, Global};
use std::time::{Duration, Instant};

const SIZES: [u32; 4] = [1_000, 10_000, 100_000, 1_000_000];

/// More members than a run of the sets has.
const NO_ROOM: u64 = 9;

/// As many members as the longest runs of the sets have.
const ROOM: u64 = 8;

/// A set that is edited run by run.
trait Edited: Sized {
    fn copy(&self) -> Result<Self, AllocError>;

    fn insert_value(&mut self, value: i64) -> Result<(), AllocError>;

    fn remove_value(&mut self, value: i64) -> Result<(), AllocError>;

    fn pop(&mut self);

    fn has(&self, value: i64) -> bool;

    fn has_room(&self) -> bool;

    /// The greatest member of the shortest run that has so many, in as many numbers from its start on.
    fn best_end(&self, count: u64) -> Option<i64>;

    fn nth_value(&self, place: u64) -> Option<i64>;

    fn count_below(&self, value: i64) -> u64;

    fn answer(&self) -> Answer;
}

impl Edited for PagedSet<i64> {
    fn copy(&self) -> Result<Self, AllocError> {
        self.try_clone()
    }

    fn insert_value(&mut self, value: i64) -> Result<(), AllocError> {
        if Interval::in_range(value, value) {
            self.insert(value)?;
        }
        Ok(())
    }

    fn remove_value(&mut self, value: i64) -> Result<(), AllocError> {
        self.remove(value)?;
        Ok(())
    }

    fn pop(&mut self) {
        self.pop_first();
    }

    fn has(&self, value: i64) -> bool {
        self.contains(&value)
    }

    fn has_room(&self) -> bool {
        self.first_fit(NO_ROOM).is_some()
    }

    fn best_end(&self, count: u64) -> Option<i64> {
        if count == 0 {
            return None;
        }
        Some(self.best_fit(count)?.upper_bound())
    }

    fn nth_value(&self, place: u64) -> Option<i64> {
        self.nth(place)
    }

    fn count_below(&self, value: i64) -> u64 {
        self.rank(value)
    }

    fn answer(&self) -> Answer {
        Answer::Set(self.interval_count(), self.size())
    }
}

impl Edited for IntervalSet<i64> {
    fn copy(&self) -> Result<Self, AllocError> {
        self.try_clone()
    }

    fn insert_value(&mut self, value: i64) -> Result<(), AllocError> {
        if Interval::in_range(value, value) {
            self.insert(value)?;
        }
        Ok(())
    }

    fn remove_value(&mut self, value: i64) -> Result<(), AllocError> {
        self.remove(value)?;
        Ok(())
    }

    fn pop(&mut self) {
        self.pop_first();
    }

    fn has(&self, value: i64) -> bool {
        self.contains(&value)
    }

    fn has_room(&self) -> bool {
        self.first_fit(NO_ROOM).is_some()
    }

    fn best_end(&self, count: u64) -> Option<i64> {
        if count == 0 {
            return None;
        }
        Some(self.best_fit(count)?.upper_bound())
    }

    fn nth_value(&self, place: u64) -> Option<i64> {
        self.nth(place)
    }

    fn count_below(&self, value: i64) -> u64 {
        self.rank(value)
    }

    fn answer(&self) -> Answer {
        Answer::of_set(self)
    }
}

/// What is done to a set with each of some values.
#[derive(Clone, Copy)]
enum Act {
    Insert,
    Remove,
    PopFirst,
    Contains,
    FirstFit,
    BestFit,
    Nth,
    Rank,
}

const ACTS: [(Act, &str); 8] = [
    (Act::Insert, "insert"),
    (Act::Remove, "remove"),
    (Act::PopFirst, "pop_first"),
    (Act::Contains, "contains"),
    (Act::FirstFit, "first_fit"),
    (Act::BestFit, "best_fit"),
    (Act::Nth, "nth"),
    (Act::Rank, "rank"),
];

/// Does it with each of the values, and adds up what the questions answer: 1 for yes, or a number.
fn carry_out<S: Edited>(act: Act, set: &mut S, values: &[i64]) -> Result<u64, AllocError> {
    let mut sum: u64 = 0;
    for value in values {
        sum = sum.wrapping_add(carry_out_one(act, set, *value)?);
    }
    Ok(sum)
}

fn carry_out_one<S: Edited>(act: Act, set: &mut S, value: i64) -> Result<u64, AllocError> {
    match act {
        Act::Insert => set.insert_value(value)?,
        Act::Remove => set.remove_value(value)?,
        Act::PopFirst => set.pop(),
        Act::Contains => return Ok(u64::from(set.has(value))),
        Act::FirstFit => return Ok(u64::from(set.has_room())),
        Act::BestFit => return Ok(set.best_end(ROOM).unwrap_or(0).unsigned_abs()),
        Act::Nth => return Ok(set.nth_value(value.unsigned_abs()).unwrap_or(0).unsigned_abs()),
        Act::Rank => return Ok(set.count_below(value)),
    }
    Ok(0)
}

/// The values that it is done with: one where the call reads the whole set.
fn values_of(act: Act, lists: &Lists, most: usize) -> &[i64] {
    match act {
        Act::Insert | Act::Remove | Act::PopFirst => &lists.edits[..most.min(lists.edits.len())],
        Act::Contains | Act::Nth | Act::Rank => &lists.probes,
        Act::FirstFit | Act::BestFit => &lists.probes[..lists.probes.len().min(1)],
    }
}

/// On how many copies of a set it is timed, and how often on each. A question leaves the set as it is,
/// so it is asked again and again.
fn repetitions(act: Act) -> (usize, usize) {
    match act {
        Act::Insert | Act::Remove | Act::PopFirst => (3, 1),
        Act::Contains | Act::FirstFit | Act::BestFit | Act::Nth | Act::Rank => (1, 60),
    }
}

/// The least time for one call, in nanoseconds, and what the last copy of the set then answers.
fn least_time<S: Edited>(act: Act, set: &S, values: &[i64]) -> Result<(u128, Answer)> {
    let (copies, passes) = repetitions(act);
    let mut least = Duration::MAX;
    let mut answer = Answer::DoesNotFit;
    for _ in 0..copies {
        let (time, given) = timed(act, set.copy()?, values, passes)?;
        least = least.min(time);
        answer = given;
    }
    Ok((least.as_nanos() / (values.len().max(1) as u128), answer))
}

/// The least time of some passes over the values, on one set.
fn timed<S: Edited>(act: Act, mut set: S, values: &[i64], passes: usize) -> Result<(Duration, Answer)> {
    let mut least = Duration::MAX;
    let mut sum = 0;
    for _ in 0..passes {
        let start = Instant::now();
        sum = carry_out(act, &mut set, values)?;
        least = least.min(start.elapsed());
    }
    Ok((least, answer_of(act, &set, sum)))
}

fn answer_of<S: Edited>(act: Act, set: &S, sum: u64) -> Answer {
    match act {
        Act::Insert | Act::Remove | Act::PopFirst => set.answer(),
        Act::Contains | Act::FirstFit | Act::BestFit | Act::Nth | Act::Rank => Answer::Number(sum),
    }
}

/// Prints a line for each call and size: `name n ns_per_call answer`, of the set in pages, and of the
/// set in a list, of which fewer edits are timed the longer each takes.
pub fn print_times() -> Result<()> {
    for &n in &SIZES {
        print_times_at(n)?;
    }
    Ok(())
}

fn print_times_at(n: u32) -> Result<()> {
    let (list, lists) = many_runs(Global, n)?;
    let pages = PagedSet::of_set(&list)?;
    let most = (1_000_000_000 / n.max(1)) as usize;
    for &(act, name) in &ACTS {
        let (time, answer) = least_time(act, &pages, values_of(act, &lists, 100_000))?;
        println!("paged_{name} {n} {time} {answer}");
        let (time, answer) = least_time(act, &list, values_of(act, &lists, most))?;
        println!("list_{name} {n} {time} {answer}");
    }
    Ok(())
}

/// Prints what the calls answer at a thousand runs, by both sets.
pub fn print_answers() -> Result<()> {
    let (list, lists) = many_runs(Global, 1_000)?;
    let pages = PagedSet::of_set(&list)?;
    for &(act, name) in &ACTS {
        let values = values_of(act, &lists, 1_000);
        let answer = answer_after(act, &pages, values)?;
        println!("paged_{name} 1000 {answer}");
        let answer = answer_after(act, &list, values)?;
        println!("list_{name} 1000 {answer}");
    }
    Ok(())
}

fn answer_after<S: Edited>(act: Act, set: &S, values: &[i64]) -> Result<Answer, AllocError> {
    let mut copy = set.copy()?;
    let sum = carry_out(act, &mut copy, values)?;
    Ok(answer_of(act, &copy, sum))
}
