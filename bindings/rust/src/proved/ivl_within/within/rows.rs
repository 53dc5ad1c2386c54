// Written by bindings/rust/extract from crates/ivl_within/src/within/rows.rt.
//! The results of runs and the runs of a set that reach a window.

#[allow(unused_imports)]
use crate::rattle::prelude::*;
use super::Combined;
use super::pairs::pair_in_window;
use crate::proved::intervallum::interval::Interval;
use crate::proved::intervallum::interval_set::IntervalSet;
use crate::proved::intervallum::ops::Whole;
use crate::proved::intervallum::width::Width;
use crate::rattle::std::alloc::AllocError;

/// Adds the results of each run of a list and each run of a set, cut to the window. Stops where one
/// pair makes the whole window. Returns how many runs of the list it took.
///
/// # Proved
///
/// ```text
/// requires left { IsMaximal left.now }
/// requires right { IsRunListIn B.whole right.now }
/// requires window { window.0 ≤ℤ window.1 }
/// ensures { OnOk result (SameMembers (Covers entries.new.items) (Union (Covers entries.old.items) (Clipped window (SumsBy op (Covers left.now) (Covers right.now))))) }
/// ```
///
/// Words: [`IsMaximal`](crate::definitions#IsMaximal), [`IsRunListIn`](crate::definitions#IsRunListIn), [`SameMembers`](crate::definitions#SameMembers), [`Covers`](crate::definitions#Covers), [`Union`](crate::definitions#Union), [`Clipped`](crate::definitions#Clipped), [`SumsBy`](crate::definitions#SumsBy).
pub fn push_rows<B: Width>(
    entries: &mut Vec<Interval<B>>,
    left: &[Interval<B>],
    right: &IntervalSet<B>,
    op: Combined,
    window: Interval<B>,
) -> Result<usize, AllocError> {
    let mut taken: usize = 0;
    for run in left {
        taken = taken.saturating_add(1);
        if push_row(entries, *run, right, op, window)? {
            return Ok(taken);
        }
    }
    Ok(taken)
}

/// Adds the results of one run and each run of a set, cut to the window. Makes only those of the runs
/// that reach the window, which it finds by binary search. Stops, with true, where one makes the whole
/// window.
fn push_row<B: Width>(
    entries: &mut Vec<Interval<B>>,
    run: Interval<B>,
    right: &IntervalSet<B>,
    op: Combined,
    window: Interval<B>,
) -> Result<bool, AllocError> {
    let met = right.runs_within(&reach(run, op, window));
    for other in met {
        let part = pair_in_window(run, *other, op, window);
        entries.push(part)?;
        if part == window {
            return Ok(true);
        }
    }
    Ok(false)
}

/// The numbers of the range whose result with some number of a run is in the window.
///
/// # Proved
///
/// ```text
/// requires filled { run.0 ≤ℤ run.1 }
/// requires window { window.0 ≤ℤ window.1 }
/// ensures { SameMembers (IsBetween result) (Clipped B.whole (IsBetween (reach_by op window run))) }
/// ```
///
/// Words: [`SameMembers`](crate::definitions#SameMembers), [`IsBetween`](crate::definitions#IsBetween), [`Clipped`](crate::definitions#Clipped), [`reach_by`](crate::definitions#reach_by).
pub fn reach<B: Width>(run: Interval<B>, op: Combined, window: Interval<B>) -> Interval<B> {
    match op {
        Combined::Sum => pair_in_window(window, run, Combined::Difference, Interval::whole()),
        Combined::Difference => pair_in_window(
            run,
            window,
            Combined::Difference,
            Interval::whole(),
        ),
    }
}

/// The numbers of the range whose result with some number of a run that stands second is in the window.
///
/// # Proved
///
/// ```text
/// requires filled { run.0 ≤ℤ run.1 }
/// requires window { window.0 ≤ℤ window.1 }
/// ensures { SameMembers (IsBetween result) (Clipped B.whole (IsBetween (reach_back_by op window run))) }
/// ```
///
/// Words: [`SameMembers`](crate::definitions#SameMembers), [`IsBetween`](crate::definitions#IsBetween), [`Clipped`](crate::definitions#Clipped), [`reach_back_by`](crate::definitions#reach_back_by).
pub fn reach_back<B: Width>(run: Interval<B>, op: Combined, window: Interval<B>) -> Interval<B> {
    match op {
        Combined::Sum => pair_in_window(window, run, Combined::Difference, Interval::whole()),
        Combined::Difference => pair_in_window(window, run, Combined::Sum, Interval::whole()),
    }
}
