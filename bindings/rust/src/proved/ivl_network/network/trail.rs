// Written by bindings/rust/extract from crates/ivl_network/src/network/trail.rt.
//! The changes that a network writes down from its first mark on, and how they are taken back.

#[allow(unused_imports)]
use crate::rattle::prelude::*;
use super::change::Change;
use super::index::Index;
use super::queue::Queue;
use crate::proved::intervallum::interval::Interval;
use crate::proved::intervallum::interval_set::IntervalSet;
use crate::proved::intervallum::ops::Singleton;
use crate::proved::intervallum::width::Width;
use crate::proved::ivl_rules::rules::Rule;
use crate::proved::ivl_store::store::{Spares, Store};
use crate::rattle::std::alloc::AllocError;

/// Reserves room for so many changes, if changes are written down.
pub(super) fn reserve_changes<B: Width>(
    trail: &mut Vec<Change<B>>,
    is_kept: bool,
    count: usize,
) -> Result<(), AllocError> {
    if is_kept {
        trail.reserve(count)?;
    }
    Ok(())
}

/// Writes a change down, if changes are written down.
pub(super) fn log_change<B: Width>(trail: &mut Vec<Change<B>>, is_kept: bool, change: Change<B>) {
    if is_kept {
        trail.push_reserved(change);
    }
}

/// Puts what is left in place of a domain, if it lost a member. Writes down the set that stood there, if changes are
/// written down and the trail does not have one of this variable since the last mark.
#[inline(always)]
pub(super) fn replace_logged<B: Width>(
    store: &mut Store<B>,
    trail: &mut Vec<Change<B>>,
    places: &mut [usize],
    spares: &mut Spares<B>,
    marks: &[usize],
    variable: usize,
    left: Option<IntervalSet<B>>,
) {
    if let Some(set) = left {
        put_logged(store, trail, places, spares, marks, variable, set);
    }
}

/// Puts a set in place of a domain, and writes that down as [`replace_logged`] does.
#[inline(always)]
fn put_logged<B: Width>(
    store: &mut Store<B>,
    trail: &mut Vec<Change<B>>,
    places: &mut [usize],
    spares: &mut Spares<B>,
    marks: &[usize],
    variable: usize,
    set: IntervalSet<B>,
) {
    let Some(old) = store.swap(variable, Some(set)) else {
        return;
    };
    if is_unkept(trail, marks, places, variable) {
        write_down(trail, places, variable, old);
    } else {
        spares.keep(old);
    }
}

/// Writes down the domain of a variable that is replaced.
fn write_down<B: Width>(
    trail: &mut Vec<Change<B>>,
    places: &mut [usize],
    variable: usize,
    old: IntervalSet<B>,
) {
    if variable < places.len() {
        places[variable] = trail.len().saturating_add(1);
    }
    trail.push_reserved(Change::Domain(variable, old));
}

/// Takes a number out of a domain. Writes down what stood there, as [`replace_logged`] does.
pub(super) fn take_out_logged<B: Width>(
    store: &mut Store<B>,
    trail: &mut Vec<Change<B>>,
    places: &mut [usize],
    spares: &mut Spares<B>,
    marks: &[usize],
    variable: usize,
    value: B,
) -> Result<(), AllocError> {
    let single = Interval::singleton(value);
    if !is_unkept(trail, marks, places, variable) {
        return store.take_out(variable, single);
    }
    let old = copy_of(&store.domains()[variable], spares)?;
    store.take_out(variable, single)?;
    write_down(trail, places, variable, old);
    Ok(())
}

/// A copy of a set, in the memory of one that is not used any more, if there is one.
fn copy_of<B: Width>(
    set: &IntervalSet<B>,
    spares: &mut Spares<B>,
) -> Result<IntervalSet<B>, AllocError> {
    let mut copy = spares.take(set.allocator());
    copy.try_clone_from(set)?;
    Ok(copy)
}

/// Whether there is a mark, and the trail does not have a domain of the variable since the last one: a look at where
/// it was kept last.
fn is_unkept<B: Width>(
    trail: &[Change<B>],
    marks: &[usize],
    places: &[usize],
    variable: usize,
) -> bool {
    let count = marks.len();
    if count == 0 {
        return false;
    }
    if variable >= places.len() {
        return true;
    }
    let place = places[variable];
    if place <= marks[count - 1] || place > trail.len() {
        return true;
    }
    !keeps(&trail[place - 1], variable)
}

/// Whether a change has the domain of a variable that was replaced.
fn keeps<B: Width>(change: &Change<B>, variable: usize) -> bool {
    match change {
        Change::Domain(i, _) => *i == variable,
        Change::Variable | Change::Require => false,
    }
}

/// Takes back the changes from a place of the trail on, the last one first. Where it does not wake rules, the
/// flags of the queue claim nothing afterwards, and the caller sets them.
pub(super) fn revert_to<B: Width>(
    trail: &mut Vec<Change<B>>,
    start: usize,
    wakes: bool,
    store: &mut Store<B>,
    spares: &mut Spares<B>,
    rules: &mut Vec<Rule>,
    index: &mut Index,
    queue: &mut Queue,
) {
    while trail.len() > start {
        if let Some(change) = trail.pop() {
            take_back(change, wakes, store, spares, rules, index, queue);
        }
    }
}

/// Takes a change back. Rules that name a variable whose domain is replaced are no longer settled, but
/// for those that take nothing.
fn take_back<B: Width>(
    change: Change<B>,
    wakes: bool,
    store: &mut Store<B>,
    spares: &mut Spares<B>,
    rules: &mut Vec<Rule>,
    index: &mut Index,
    queue: &mut Queue,
) {
    match change {
        Change::Domain(variable, set) => {
            put_back(store, spares, variable, set);
            queue.wake(wakes, false, false, variable, store, rules, index);
        }
        Change::Variable => {
            store.drop_variable();
            index.pop_variable();
        }
        Change::Require => {
            if let Some(rule) = rules.pop() {
                index.pop_rule(&rule);
                queue.pop();
            }
        }
    }
}

/// Puts a domain back, if there is such a variable.
fn put_back<B: Width>(
    store: &mut Store<B>,
    spares: &mut Spares<B>,
    variable: usize,
    set: IntervalSet<B>,
) {
    set.in_whole();
    if variable < store.domains().len() {
        if let Some(old) = store.swap(variable, Some(set)) {
            spares.keep(old);
        }
    }
}

/// Whether there is a mark, so that changes are written down.
pub(super) fn is_logging(marks: &[usize]) -> bool {
    !marks.is_empty()
}

/// Clears the trail if there is no mark.
pub(super) fn clear_unmarked<B: Width>(marks: &[usize], trail: &mut Vec<Change<B>>) {
    if marks.is_empty() {
        trail.clear();
    }
}
