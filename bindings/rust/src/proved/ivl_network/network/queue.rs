// Written by bindings/rust/extract from crates/ivl_network/src/network/queue.rt.
//! The rules that have to be looked at again.

#[allow(unused_imports)]
use crate::rattle::prelude::*;
use super::index::Index;
use super::narrowing::has_two;
use crate::proved::intervallum::ops::{IsEmpty, IsSingleton};
use crate::proved::intervallum::width::Width;
use crate::proved::ivl_rules::rules::Rule;
use crate::proved::ivl_rules::rules::narrowing::takes_nothing;
use crate::proved::ivl_store::store::{Constraint, Lost, Store};
use crate::rattle::std::alloc::{AllocError, Global};
use crate::rattle::std::mem;

/// Whether each rule is settled, so that narrowing by it would change nothing, and a queue of
/// those that are not. The queue goes in rounds: a rule that gets unsettled waits for the next, or,
/// if it is late, for the first round that would be empty.
pub(super) struct Queue {
    settled: Vec<bool>,
    round: Vec<usize>,
    later: Vec<usize>,
    late: Vec<usize>,
}

impl Queue {
    pub(super) fn new(alloc: Global) -> Queue {
        Queue {
            settled: Vec::new(alloc),
            round: Vec::new(alloc),
            later: Vec::new(alloc),
            late: Vec::new(alloc),
        }
    }

    /// Reserves room for so many more rules.
    pub(super) fn reserve(&mut self, rules: usize) -> Result<(), AllocError> {
        let count = self.settled.len();
        self.settled.reserve(rules)?;
        self.round
            .reserve((count - self.round.len()).saturating_add(rules))?;
        self.later
            .reserve((count - self.later.len()).saturating_add(rules))?;
        self.late
            .reserve((count - self.late.len()).saturating_add(rules))?;
        Ok(())
    }

    /// Adds a rule after the others, not settled.
    pub(super) fn push(&mut self) -> Result<(), AllocError> {
        let count = self.settled.len();
        self.round.reserve(count - self.round.len() + 1)?;
        self.later.reserve(count - self.later.len() + 1)?;
        self.late.reserve(count - self.late.len() + 1)?;
        self.settled.push(false)?;
        self.later.push_reserved(count);
        Ok(())
    }

    /// Drops the last rule, if there is one.
    pub(super) fn pop(&mut self) {
        if let Some(is_settled) = self.settled.pop() {
            let k = self.settled.len();
            if !is_settled && !remove(&mut self.later, k) && !remove(&mut self.late, k) {
                remove(&mut self.round, k);
            }
        }
    }

    /// Returns a rule that is not settled, the one that waits longest by rounds, or `None` if all
    /// are. It stays in the queue, as the last of the round.
    pub(super) fn first(&mut self) -> Option<usize> {
        self.turn();
        let count = self.round.len();
        if count == 0 {
            return None;
        }
        Some(self.round[count - 1])
    }

    /// Begins the next round, if this one has ended.
    fn turn(&mut self) {
        if !self.round.is_empty() {
            return;
        }
        mem::swap(&mut self.round, &mut self.later);
        if self.round.is_empty() {
            mem::swap(&mut self.round, &mut self.late);
        }
    }

    /// Whether each rule is settled.
    pub(super) fn is_empty(&self) -> bool {
        self.round.is_empty() && self.later.is_empty() && self.late.is_empty()
    }

    /// Updates the flags after the first rule, at these places, narrowed the store. It is settled then. Others that
    /// name a variable which lost a member are no longer, but for those that take nothing.
    #[inline]
    pub(super) fn settle<B: Width>(
        &mut self,
        i: usize,
        lost: Lost,
        c: &Constraint,
        store: &Store<B>,
        rules: &[Rule],
        index: &Index,
    ) {
        let alone = is_one_at_most(lost);
        self.wake(lost.x, true, alone, c.x, store, rules, index);
        self.wake(lost.y, true, alone, c.y, store, rules, index);
        self.wake(lost.z, true, alone, c.z, store, rules, index);
        self.settle_first(i);
    }

    /// Settles all rules, so that none waits, if narrowing by each would change nothing.
    pub(super) fn settle_all(&mut self, are_settled: bool) {
        if !are_settled {
            return;
        }
        while let Some(k) = self.first() {
            self.settle_first(k);
        }
    }

    /// Settles the first rule, which leaves the queue.
    fn settle_first(&mut self, k: usize) {
        let _ = self.round.pop();
        self.settled[k] = true;
    }

    /// Clears the flag of a rule that is settled, which then waits for the next round, or if it is late,
    /// until no other does.
    #[inline]
    fn clear(&mut self, k: usize, is_late: bool) {
        self.settled[k] = false;
        if is_late {
            self.late.push_reserved(k);
        } else {
            self.later.push_reserved(k);
        }
    }

    /// Clears the flags of the rules that name the variable, if it has changed, but for those that take
    /// nothing from the domains of the store: `only_lost` says that the change took members and added none,
    /// and `alone` that no other domain has changed with it.
    #[inline(always)]
    pub(super) fn wake<B: Width>(
        &mut self,
        changed: bool,
        only_lost: bool,
        alone: bool,
        variable: usize,
        store: &Store<B>,
        rules: &[Rule],
        index: &Index,
    ) {
        if !changed {
            return;
        }
        self.wake_listed(false, false, variable, store, rules, index);
        if index.last(true, variable) == 0 {
            return;
        }
        if only_lost && has_two(store, variable) {
            return;
        }
        let keeps_one = is_left_alone(only_lost, alone, variable, store);
        self.wake_listed(true, keeps_one, variable, store, rules, index);
    }

    /// Clears the flags of the rules of one list that name the variable, but for those that take nothing
    /// from the domains of the store and, where the variable alone lost members and keeps one, those whose
    /// other variable is a single number.
    #[inline(always)]
    fn wake_listed<B: Width>(
        &mut self,
        singles: bool,
        keeps_one: bool,
        variable: usize,
        store: &Store<B>,
        rules: &[Rule],
        index: &Index,
    ) {
        let last = index.last(singles, variable);
        if last == 0 {
            return;
        }
        // one that alone names the variable has mostly changed it
        if index.before(last) == 0 && !self.settled[last / 4] {
            return;
        }
        self.wake_from(last, singles, keeps_one, variable, store, rules, index);
    }

    /// Clears flags as [`Queue::wake_listed`] does, by a walk from the place of the last rule of the list.
    fn wake_from<B: Width>(
        &mut self,
        last: usize,
        singles: bool,
        keeps_one: bool,
        variable: usize,
        store: &Store<B>,
        rules: &[Rule],
        index: &Index,
    ) {
        // for the prover: only rules that need single numbers are asked what one of these forbids
        debug_assert!(!keeps_one || singles);
        let mut place = last;
        while place > 0 {
            let k = place / 4;
            if self.settled[k] && !stays_settled(&rules[k], keeps_one, variable, store) {
                let is_late = !singles && index.has_leaf(k) && has_two(store, variable);
                self.clear(k, is_late);
            }
            place = index.before(place);
        }
    }
}

/// Whether no two of three variables have lost a member.
fn is_one_at_most(lost: Lost) -> bool {
    if lost.x {
        return !lost.y && !lost.z;
    }
    !lost.y || !lost.z
}

/// Whether a variable alone has changed, only lost members, and keeps one.
fn is_left_alone<B: Width>(only_lost: bool, alone: bool, variable: usize, store: &Store<B>) -> bool {
    if !only_lost || !alone {
        return false;
    }
    !store.domains()[variable].is_empty()
}

/// Whether a rule that is settled stays so where a variable that it names has changed: it takes nothing,
/// or the variable alone lost members and keeps one, and the other variable is a single number, so that
/// what this forbids was taken before.
fn stays_settled<B: Width>(rule: &Rule, keeps_one: bool, variable: usize, store: &Store<B>) -> bool {
    if keeps_one && is_single_beside(rule, variable, store) {
        return true;
    }
    takes_nothing(store.domains(), rule)
}

/// Whether the other variable of a rule that needs single numbers is a single number.
fn is_single_beside<B: Width>(rule: &Rule, variable: usize, store: &Store<B>) -> bool {
    let c = rule.places();
    if c.x == variable {
        store.domains()[c.y].is_singleton()
    } else {
        store.domains()[c.x].is_singleton()
    }
}

/// Removes a number from a list, at the last place where it stands. Returns false, and changes
/// nothing, if it does not stand there.
fn remove(list: &mut Vec<usize>, k: usize) -> bool {
    let mut place = list.len();
    while place > 0 {
        place -= 1;
        if list[place] == k {
            list.swap_remove(place);
            return true;
        }
    }
    false
}
