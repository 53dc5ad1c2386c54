//! Entries in any order, of which later ones win, as ascending entries without common numbers.
use super::below::{Entry, Held};
use crate::proved::ops::{Bounded as _, IsEmpty as _, StrictShrinkLeft as _, StrictShrinkRight as _};
use crate::proved::{Interval, width::Width};
use alloc::collections::BinaryHeap;
use alloc::vec::Vec;
use core::cmp::Ordering;

/// Returns what entries give to numbers if they are written one after the other, in ascending order. Values are moved; one is copied
/// only where its entry has numbers on both sides of a later entry.
///
/// Entries that ascend and have no common numbers are looked at and returned; else `O(k log k)` for `k` entries: they are sorted by
/// their lower bounds, and a sweep over the numbers has the entries that are open in a heap.
pub fn swept<T: Width, V: Clone>(mut entries: Vec<Entry<T, V>>) -> Vec<Entry<T, V>> {
    entries.retain(|(run, _)| !run.is_empty());
    if entries.windows(2).all(|pair| pair[0].0.upper() < pair[1].0.lower()) {
        return entries;
    }
    let open = |(rank, (run, held))| Open { rank, run, held };
    let mut sorted: Vec<_> = entries.into_iter().enumerate().map(open).collect();
    sorted.sort_by_key(|it| it.run.lower());
    let mut sweep = Sweep { made: Vec::with_capacity(sorted.len()), open: BinaryHeap::new() };
    for next in sorted {
        sweep.add(next);
    }
    while !sweep.open.is_empty() {
        sweep.write_top();
    }
    sweep.made
}

/// An entry, and its place in the list: of two at one number the later one wins.
struct Open<T: Width, V> {
    rank: usize,
    run: Interval<T>,
    held: Held<V>,
}

impl<T: Width, V> Ord for Open<T, V> {
    fn cmp(&self, other: &Self) -> Ordering {
        self.rank.cmp(&other.rank)
    }
}

impl<T: Width, V> PartialOrd for Open<T, V> {
    fn partial_cmp(&self, other: &Self) -> Option<Ordering> {
        Some(self.cmp(other))
    }
}

impl<T: Width, V> PartialEq for Open<T, V> {
    fn eq(&self, other: &Self) -> bool {
        self.rank == other.rank
    }
}

impl<T: Width, V> Eq for Open<T, V> {}

/// A sweep over ascending lower bounds: what is settled, and the entries that may have numbers above it.
struct Sweep<T: Width, V> {
    made: Vec<Entry<T, V>>,
    open: BinaryHeap<Open<T, V>>,
}

impl<T: Width, V: Clone> Sweep<T, V> {
    /// Adds the next entry: one that is hidden where it starts waits, and any other hides what is open.
    fn add(&mut self, next: Open<T, V>) {
        while self.open.peek().is_some_and(|top| top.run.upper() < next.run.lower()) {
            self.write_top();
        }
        match self.open.peek() {
            Some(top) if next.rank < top.rank => {
                if next.run.upper() <= top.run.upper() {
                    return;
                }
            }
            _ => self.hide(next.run),
        }
        self.open.push(next);
    }

    /// Settles the numbers below a run that hides the open entries.
    fn hide(&mut self, hiding: Interval<T>) {
        let Some(mut top) = self.open.pop() else { return };
        let part = self.unsettled(top.run).strict_shrink_right(hiding.lower());
        top.run = top.run.strict_shrink_left(hiding.upper());
        if top.run.is_empty() {
            return self.write(part, top.held);
        }
        if !part.is_empty() {
            self.made.push((part, Held(top.held.0.clone())));
        }
        self.open.push(top);
    }

    /// Takes the highest entry out, and gives what is left of its run the value.
    fn write_top(&mut self) {
        if let Some(top) = self.open.pop() {
            self.write(top.run, top.held);
        }
    }

    /// Gives what is left of a run a value.
    fn write(&mut self, run: Interval<T>, held: Held<V>) {
        let left = self.unsettled(run);
        if !left.is_empty() {
            self.made.push((left, held));
        }
    }

    /// The numbers of a run above all that are settled.
    fn unsettled(&self, run: Interval<T>) -> Interval<T> {
        self.made.last().map_or(run, |(last, _)| run.strict_shrink_left(last.upper()))
    }
}
