//! Many edits in place, on a copy of a set.

use intervallum::proved::AllocError;
use intervallum::proved::interval::Interval;
use intervallum::proved::interval_set::IntervalSet;

/// The set after each value was inserted.
pub fn inserted(set: &IntervalSet<i64>, values: &[i64]) -> Result<IntervalSet<i64>, AllocError> {
    let mut copy = set.try_clone()?;
    for value in values {
        if Interval::in_range(*value, *value) {
            copy.insert(*value)?;
        }
    }
    Ok(copy)
}

/// The set after each value was removed.
pub fn removed(set: &IntervalSet<i64>, values: &[i64]) -> Result<IntervalSet<i64>, AllocError> {
    let mut copy = set.try_clone()?;
    for value in values {
        copy.remove(*value)?;
    }
    Ok(copy)
}

/// How many members were popped before none was left.
pub fn popped(set: &IntervalSet<i64>) -> Result<u64, AllocError> {
    let mut copy = set.try_clone()?;
    let mut count: u64 = 0;
    for _ in 0..u64::MAX {
        if copy.pop_first().is_none() {
            break;
        }
        count = count.saturating_add(1);
    }
    Ok(count)
}
