//! Makes 100,000 random edits and questions of a set of `i8`, the same in each run, and compares each answer, and after each edit
//! the whole set, with a list of flags.
mod flags;

use flags::Flags;
use intervallum::proved::interval::Interval;
use intervallum::proved::interval_set::IntervalSet;
use intervallum::proved::ops::{Bounded, Cardinality, Contains, IsEmpty, Range};
use intervallum::proved::{AllocError, Global};

const STEPS: u32 = 100_000;

/// The set after all steps.
const LEFT: &str = "{[-57..-51][-48..-48][-46..-46][-31..-31][-23..-23][-19..-18][-16..-15][-10..-9][-1..-1][8..8][10..15][19..19]\
    [21..29][31..31][33..35][37..38][40..40][46..46][51..59][61..61][63..70][77..81][84..84][86..88]}";

/// Random numbers, by a linear congruential generator.
struct Generator {
    state: u64,
}

impl Generator {
    fn next(&mut self) -> u8 {
        self.state = self.state.wrapping_mul(6_364_136_223_846_793_005).wrapping_add(1_442_695_040_888_963_407);
        (self.state >> 56) as u8
    }

    fn next_value(&mut self) -> i8 {
        self.next().wrapping_sub(128) as i8
    }
}

/// The numbers that say what is done in a step: its kind, and what it is done with.
#[derive(Clone, Copy, Debug)]
struct Step {
    kind: u8,
    value: i8,
    length: u8,
}

impl Step {
    fn next(generator: &mut Generator) -> Step {
        Step { kind: generator.next() % 16, value: generator.next_value(), length: generator.next() % 12 }
    }

    /// Makes the step on both, and returns whether they agree.
    fn agrees(self, set: &mut IntervalSet<i8>, flags: &mut Flags) -> bool {
        if self.kind < 7 { edit(set, flags, self) == Ok(true) && flags.agree(set) } else { question(set, flags, self) }
    }
}

#[test]
fn edits_and_questions_agree_with_flags() {
    let mut generator = Generator { state: 7 };
    let mut set = IntervalSet::<i8>::empty(Global);
    let mut flags = Flags::none();
    for number in 0..STEPS {
        let step = Step::next(&mut generator);
        assert!(step.agrees(&mut set, &mut flags), "step {number}: {step:?} differs");
    }
    assert_eq!(set.to_string(), LEFT);
}

/// Makes one edit of both, and returns whether the results are the same.
fn edit(set: &mut IntervalSet<i8>, flags: &mut Flags, step: Step) -> Result<bool, AllocError> {
    let value = step.value;
    // crossed if the length is 0 or 1
    let upper = after(value, step.length).saturating_sub(2);
    match step.kind {
        0 => insert(set, flags, value),
        1 => Ok(set.remove(value)? == flags.put(value, false)),
        2 => edit_run(set, flags, value, upper, true),
        3 => edit_run(set, flags, value, upper, false),
        4 => Ok(pop(set.pop_first(), flags.nth(0), flags)),
        5 => Ok(pop(set.pop_last(), flags.previous_to(127), flags)),
        _ => Ok(clear_seldom(set, flags, step)),
    }
}

/// Inserts a number that is in range into both.
fn insert(set: &mut IntervalSet<i8>, flags: &mut Flags, value: i8) -> Result<bool, AllocError> {
    if Interval::in_range(value, value) { Ok(set.insert(value)? == flags.put(value, true)) } else { Ok(true) }
}

/// Inserts an interval that is in range into both, or removes it from both.
fn edit_run(
    set: &mut IntervalSet<i8>,
    flags: &mut Flags,
    lower: i8,
    upper: i8,
    is_insertion: bool,
) -> Result<bool, AllocError> {
    if Interval::in_range(lower, upper) {
        let run = Interval::new(lower, upper);
        if is_insertion {
            set.insert_interval(run)?;
        } else {
            set.remove_interval(run)?;
        }
        flags.put_all(lower, upper, is_insertion);
    }
    Ok(true)
}

/// Clears both, in few of the steps.
fn clear_seldom(set: &mut IntervalSet<i8>, flags: &mut Flags, step: Step) -> bool {
    if step.length == 0 && step.value > 100 {
        set.clear();
        flags.put_all(-127, 127, false);
    }
    true
}

/// The number `length` after another, or the greatest.
fn after(value: i8, length: u8) -> i8 {
    value.saturating_add_unsigned(length)
}

/// Removes the popped member from the flags too, and returns whether it is the right one.
fn pop(popped: Option<i8>, expected: Option<i8>, flags: &mut Flags) -> bool {
    if let Some(value) = popped {
        flags.put(value, false);
    }
    popped == expected
}

/// Makes one query of both, and returns whether the results are the same; false where it runs out of memory.
fn question(set: &IntervalSet<i8>, flags: &Flags, step: Step) -> bool {
    let Step { kind, value, length } = step;
    let count = length.saturating_add(1);
    match kind {
        7 => set.next_from(value) == flags.next_from(value),
        8 => set.previous_to(value) == flags.previous_to(value),
        9 => is_run(set.run_at(value), flags.run_at(value)),
        10 if count > 0 => is_run(set.first_fit(count), flags.first_fit_from(-127, count)),
        11 if count > 0 => is_run(set.first_fit_from(value, count), flags.first_fit_from(value, count)),
        12 => set.rank(value) == flags.rank(value),
        13 => set.nth(length) == flags.nth(length),
        14 => gaps_agree(set, flags, value, after(value, length)),
        _ => set.contains(&value) == flags.has(value),
    }
}

/// Whether the interval has these ends, or both are missing.
fn is_run(interval: Option<Interval<i8>>, ends: Option<(i8, i8)>) -> bool {
    match interval {
        Some(run) => !run.is_empty() && ends == Some((run.lower(), run.upper())),
        None => ends.is_none(),
    }
}

/// The gaps in an interval agree: as many numbers, and none of them is a member.
fn gaps_agree(set: &IntervalSet<i8>, flags: &Flags, lower: i8, upper: i8) -> bool {
    if !Interval::in_range(lower, upper) {
        return true;
    }
    match set.gaps_within(&Interval::new(lower, upper)) {
        Ok(gaps) => gaps.size() == flags.gaps_within(lower, upper) && are_gaps(&gaps, flags, lower, upper),
        Err(AllocError) => false,
    }
}

/// None of the gaps is a member or outside the interval.
fn are_gaps(gaps: &IntervalSet<i8>, flags: &Flags, lower: i8, upper: i8) -> bool {
    for value in -127i8..=127 {
        if gaps.contains(&value) && (flags.has(value) || value < lower || upper < value) {
            return false;
        }
    }
    true
}
