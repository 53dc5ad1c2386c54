// Written by bindings/rust/extract from crates/intervallum/src/steps/search.rt.
//! Binary search for a value among the runs of a set.

#[allow(unused_imports)]
use crate::rattle::prelude::*;
use super::probes::Probes;
use crate::proved::intervallum::ops::Bounded;
use crate::proved::intervallum::width::Width;
pub use crate::proved::ivl_places::place::Place;
use crate::rattle::std::hint::select_unpredictable;

/// Returns the place of `v`, which may be any value of its type. Binary search: `O(log n)`. Does
/// not allocate.
///
/// Looks at no more runs than their number has binary digits. The contract also gives the run that
/// holds `v`, or the next and the previous member.
///
/// ```
/// use intervallum::proved::examples::*;
///
/// fn main() -> Result<(), std::boxed::Box<dyn std::error::Error>> {
///     let alloc = Global;
///     let a: IntervalSet<i32> = [(1, 2), (5, 6)].to_interval_set(alloc)?;
///     let mut probes = Probes::new(&a);
///     assert_eq!(find(&mut probes, 5), Place::In(1));
///     assert_eq!(find(&mut probes, 3), Place::Gap(1));
///     Ok(())
/// }
/// ```
///
/// # Proved
///
/// The place is the index of the run that has the value; or, if none has it, the number of runs below it: the run at this index then starts at the next member, and the run before it ends at the previous one. The runs stay. It takes no more looks than the number of runs has binary digits.
///
/// ```text
/// ensures place { IsPlaceOf probes.old.runs (B.value v) result }
/// ensures same { probes.new.runs ≡ probes.old.runs }
/// ensures beside { IsBeside probes.old.runs (B.value v) result }
/// ensures looks { (digits : ℕ) → length probes.old.runs < 2 ^ digits → probes.new.looks ≤ probes.old.looks + digits }
/// ```
///
/// Words: [`IsPlaceOf`](crate::definitions#IsPlaceOf), [`IsBeside`](crate::definitions#IsBeside).
pub fn find<B: Width>(probes: &mut Probes<'_, B>, v: B) -> Place {
    let count = probes.len();
    find_between(probes, v, 0, count)
}

/// The place of `v`, searched for from place `from` on. Doubles its steps until it is past `v`, and
/// then does a binary search: `O(log d)` if it advances by `d` runs. Does not allocate.
///
/// The caller must ensure that `from` is at most `probes.len()`, and the runs before place `from`
/// end below `v`, as they do if an earlier search for a lower value returned that place.
pub(crate) fn find_from<B: Width>(probes: &mut Probes<'_, B>, v: B, from: usize) -> Place {
    let count = probes.len();
    let mut low = from;
    'search: while low - from < count - low {
        let next = low + (low - from);
        let run = probes.look(next);
        if v < run.lower() {
            return find_between(probes, v, low, next);
        } else if run.upper() < v {
            low = next + 1;
        } else {
            return Place::In(next);
        }
    }
    find_between(probes, v, low, count)
}

/// The place of `v`, which lies above the first `low` runs and below those from `high` on.
fn find_between<B: Width>(probes: &mut Probes<'_, B>, v: B, mut low: usize, high: usize) -> Place {
    probes.len();
    // how many are left does not depend on what is seen, so the next look need not wait for it
    let mut left = high - low;
    // the last run seen that does not end below `v` has it
    let mut is_in = false;
    'search: while 0 < left {
        let half = left - left / 2;
        left -= half;
        let run = probes.look(low + half - 1);
        let is_below = run.upper() < v;
        low = select_unpredictable(is_below, low + half, low);
        is_in = select_unpredictable(is_below, is_in, run.lower() <= v);
    }
    if is_in {
        Place::In(low)
    } else {
        Place::Gap(low)
    }
}
