// Written by bindings/rust/extract from crates/ivl_network/src/network/settling.rt.
//! Narrowing by the rules that are not settled, until a budget stops it.

#[allow(unused_imports)]
use crate::rattle::prelude::*;
use super::narrowing::{cost_if, narrow_logged};
use super::trail::{is_logging, reserve_changes};
use super::{Network, Settled};
use crate::proved::intervallum::width::Width;
use crate::proved::ivl_store::store::StoreFault;
use crate::rattle::std::alloc::AllocError;

/// What one step of narrowing did.
enum Step {
    /// Nothing: no rule has to be looked at.
    Settled,
    /// Nothing: the next narrowing counts for more than is left.
    Costly,
    /// A narrowing, which counts for so much.
    Made(u64),
}

impl<B: Width> Network<B> {
    /// Narrows the domains by the rules until nothing changes, or `budget` narrowings are made. Returns
    /// [`Settled::All`] exactly if no rule is left that has to be looked at.
    ///
    /// Domains lose no member that is in a common solution of the rules. After [`Settled::All`] they are
    /// the greatest ones, within those before the call, in which each rule supports every member. After
    /// [`Settled::Unfinished`] another call goes on.
    ///
    /// A rule whose domains did not change since it narrowed them is not counted, nor is an `AtMost` or a
    /// `Differs` that takes nothing from them: each narrowing that counts removes a member, or leaves one
    /// rule fewer to look at. The rules are looked at in rounds, and one that has to be looked at again
    /// waits for the next; one that alone names a variable may wait until no other does.
    /// Costs its narrowings, `O(1)` beside each, and for each domain that changes a pass over the rules that
    /// name its variable. Rules in a circle may take a member or two at a time, and then need as many
    /// narrowings as there are members: the budget is what stops them.
    ///
    /// # Errors
    ///
    /// Fails only if allocation fails, with [`StoreFault::Memory`]. The network is then as the last
    /// completed narrowing left it, and another call goes on.
    ///
    /// ```
    /// use intervallum::proved::examples::*;
    ///
    /// fn main() -> Result<(), std::boxed::Box<dyn std::error::Error>> {
    ///     let alloc = Global;
    ///     // x + 1 <= y and y + 1 <= x, for x and y from 0 to 999
    ///     let mut network: Network<i32> = Network::new(alloc);
    ///     let x = network.add_variable(IntervalSet::new(alloc, 0, 999)?)?;
    ///     let y = network.add_variable(IntervalSet::new(alloc, 0, 999)?)?;
    ///     network.require(Rule::AtMost { x, y, by: 1 })?;
    ///     network.require(Rule::AtMost { x: y, y: x, by: 1 })?;
    ///     assert_eq!(network.settle(2)?, Settled::Unfinished);
    ///     assert!(!network.has_empty());
    ///     assert_eq!(network.settle(10_000)?, Settled::All);
    ///     assert!(network.has_empty());
    ///     Ok(())
    /// }
    /// ```
    ///
    /// # Proved
    ///
    /// It fails only if allocation fails. The rules, the number of variables and the marks stay. A rule stays settled unless a variable that it names loses a member. Domains only lose members, and no supported family and no common solution loses one. All: the domains are the greatest supported family. So many narrowings were made: all of the budget if some rule is left. No narrowing is made in vain: so many fewer are left. All exactly where no rule is left to look at, and so wherever the budget covers the work.
    ///
    /// ```text
    /// ensures memory { IfErr result (λ fault. fault ≡ StoreFault.Memory) }
    /// ensures rules { self.new.rules ≡ self.old.rules }
    /// ensures marked { self.new.marked ≡ self.old.marked }
    /// ensures were_settled { self.new.were_settled ≡ self.old.were_settled }
    /// ensures kept_count { length self.new.domains ≡ length self.old.domains }
    /// ensures stays { KeepsSettled self.old.rules (set_at self.old.domains) (set_at self.new.domains) self.old.settled self.new.settled }
    /// ensures keeps { KeepsUnder self.old.rules self.old.domains self.new.domains }
    /// ensures solutions { (point : ℕ → ℤ) → IsCommonPoint self.old.rules (set_at self.old.domains) point → IsCommonPoint self.old.rules (set_at self.new.domains) point }
    /// ensures greatest { IfOk result (λ s. s ≡ Settled.All → IsGreatestUnder self.old.rules (set_at self.old.domains) (set_at self.new.domains)) }
    /// ensures made { IfOk result (λ s. (count : ℕ) × (count ≤ budget) × (s ≡ Settled.Unfinished → count ≡ budget)
    ///     × AreRuleNarrowings self.old.rules count (set_at self.old.domains) (set_at self.new.domains)) }
    /// ensures made_before { OnErr result ((count : ℕ) × (count < budget) × AreRuleNarrowings self.old.rules count (set_at self.old.domains) (set_at self.new.domains)) }
    /// ensures fewer { IfOk result (λ s. s ≡ Settled.Unfinished → budget + work_of_rules B.whole self.new ≤ work_of_rules B.whole self.old) }
    /// ensures exactly { IfOk result (λ s. s ≡ Settled.All ↔ unsettled_count self.new.settled ≡ 0) }
    /// ensures enough { IfOk result (λ s. work_of_rules B.whole self.old ≤ budget → s ≡ Settled.All) }
    /// ```
    ///
    /// Words: [`KeepsSettled`](crate::definitions#KeepsSettled), [`set_at`](crate::definitions#set_at), [`KeepsUnder`](crate::definitions#KeepsUnder), [`IsCommonPoint`](crate::definitions#IsCommonPoint), [`IsGreatestUnder`](crate::definitions#IsGreatestUnder), [`AreRuleNarrowings`](crate::definitions#AreRuleNarrowings), [`work_of_rules`](crate::definitions#work_of_rules), [`unsettled_count`](crate::definitions#unsettled_count).
    pub fn settle(&mut self, budget: u64) -> Result<Settled, StoreFault> {
        self.narrow_up_to(budget, false)?;
        Ok(self.reached())
    }

    /// Narrows the domains as [`Network::settle`] does, but no further once one of them is empty: no point
    /// solves the rules then. [`Settled::Unfinished`] says that the budget is used up or that a domain is
    /// empty; check with [`Network::has_empty`]. If a domain is empty before the call, nothing changes.
    /// Costs what [`Network::settle`] costs.
    ///
    /// # Errors
    ///
    /// Those of [`Network::settle`].
    ///
    /// ```
    /// use intervallum::proved::examples::*;
    ///
    /// fn main() -> Result<(), std::boxed::Box<dyn std::error::Error>> {
    ///     let alloc = Global;
    ///     // x + 1 <= y leaves x = 0 and y = 1, and y + 1 <= x leaves none of them
    ///     let mut network: Network<i32> = Network::new(alloc);
    ///     let x = network.add_variable(IntervalSet::new(alloc, 0, 1)?)?;
    ///     let y = network.add_variable(IntervalSet::new(alloc, 0, 1)?)?;
    ///     network.require(Rule::AtMost { x, y, by: 1 })?;
    ///     network.require(Rule::AtMost { x: y, y: x, by: 1 })?;
    ///     assert_eq!(network.settle_unless_empty(100)?, Settled::Unfinished);
    ///     assert!(network.has_empty());
    ///     Ok(())
    /// }
    /// ```
    ///
    /// # Proved
    ///
    /// It fails only if allocation fails. The rules, the number of variables and the marks stay. A rule stays settled unless a variable that it names loses a member. Domains only lose members, and no supported family and no common solution loses one. All: the domains are the greatest supported family, and no rule is left to look at. So many narrowings were made: all of the budget if some rule is left and no domain is empty, and none if one was. All but the last of them left no domain empty. No narrowing is made in vain: so many fewer are left.
    ///
    /// ```text
    /// ensures memory { IfErr result (λ fault. fault ≡ StoreFault.Memory) }
    /// ensures rules { self.new.rules ≡ self.old.rules }
    /// ensures marked { self.new.marked ≡ self.old.marked }
    /// ensures were_settled { self.new.were_settled ≡ self.old.were_settled }
    /// ensures kept_count { length self.new.domains ≡ length self.old.domains }
    /// ensures stays { KeepsSettled self.old.rules (set_at self.old.domains) (set_at self.new.domains) self.old.settled self.new.settled }
    /// ensures keeps { KeepsUnder self.old.rules self.old.domains self.new.domains }
    /// ensures solutions { (point : ℕ → ℤ) → IsCommonPoint self.old.rules (set_at self.old.domains) point → IsCommonPoint self.old.rules (set_at self.new.domains) point }
    /// ensures greatest { IfOk result (λ s. s ≡ Settled.All → IsGreatestUnder self.old.rules (set_at self.old.domains) (set_at self.new.domains)) }
    /// ensures exactly { IfOk result (λ s. s ≡ Settled.All ↔ unsettled_count self.new.settled ≡ 0) }
    /// ensures made { IfOk result (λ s. (count : ℕ) × (count ≤ budget) × (s ≡ Settled.Unfinished → (count ≡ budget) ⊎ Any (λ L. L ≡ []) self.new.domains)
    ///     × AreRuleNarrowings self.old.rules count (set_at self.old.domains) (set_at self.new.domains)) }
    /// ensures made_before { OnErr result ((count : ℕ) × (count < budget) × AreRuleNarrowings self.old.rules count (set_at self.old.domains) (set_at self.new.domains)) }
    /// ensures stops { Any (λ L. L ≡ []) self.old.domains → self.new ≡ self.old }
    /// ensures emptied { (self.new.domains ≡ self.old.domains) ⊎ ((count : ℕ) × (count < budget) × IsEmptiedLast self.old.rules count self.old.domains self.new.domains) }
    /// ensures fewer { IfOk result (λ s. s ≡ Settled.Unfinished → (budget + work_of_rules B.whole self.new ≤ work_of_rules B.whole self.old) ⊎ Any (λ L. L ≡ []) self.new.domains) }
    /// ensures enough { IfOk result (λ s. work_of_rules B.whole self.old ≤ budget → (s ≡ Settled.All) ⊎ Any (λ L. L ≡ []) self.new.domains) }
    /// ```
    ///
    /// Words: [`KeepsSettled`](crate::definitions#KeepsSettled), [`set_at`](crate::definitions#set_at), [`KeepsUnder`](crate::definitions#KeepsUnder), [`IsCommonPoint`](crate::definitions#IsCommonPoint), [`IsGreatestUnder`](crate::definitions#IsGreatestUnder), [`unsettled_count`](crate::definitions#unsettled_count), [`AreRuleNarrowings`](crate::definitions#AreRuleNarrowings), [`IsEmptiedLast`](crate::definitions#IsEmptiedLast), [`work_of_rules`](crate::definitions#work_of_rules).
    pub fn settle_unless_empty(&mut self, budget: u64) -> Result<Settled, StoreFault> {
        self.narrow_up_to(budget, true)?;
        Ok(self.reached())
    }

    /// Narrows by rules that are not settled until there is none, or so many narrowings are made, or if
    /// it is to stop there, until a domain is empty.
    fn narrow_up_to(&mut self, budget: u64, stops_at_empty: bool) -> Result<(), AllocError> {
        for _ in 0..budget {
            if stops_at_empty && self.has_empty() {
                return Ok(());
            }
            if !self.narrow_next()? {
                return Ok(());
            }
        }
        Ok(())
    }

    /// Narrows the domains as [`Network::settle`] does, by narrowings that count for what they look at:
    /// a sum counts for one, and for one more for each 256 pairs of runs of two of its three domains; a
    /// rule of two variables for one, and for one more for each 256 runs of its domains. One that counts
    /// for more than is left of the budget is not begun. Returns [`Settled::All`] exactly if no rule is
    /// left that has to be looked at.
    ///
    /// After [`Settled::Unfinished`] another call goes on, if its budget covers the next narrowing. Costs
    /// what [`Network::settle`] costs.
    ///
    /// # Errors
    ///
    /// Those of [`Network::settle`].
    ///
    /// ```
    /// use intervallum::proved::examples::*;
    ///
    /// fn main() -> Result<(), std::boxed::Box<dyn std::error::Error>> {
    ///     let alloc = Global;
    ///     // x + y = z over ten runs each: three times a hundred pairs, so the narrowing counts for two
    ///     let evens: IntervalSet<i32> = [(0, 0), (2, 2), (4, 4), (6, 6), (8, 8), (10, 10), (12, 12), (14, 14), (16, 16), (18, 18)]
    ///         .to_interval_set(alloc)?;
    ///     let mut network: Network<i32> = Network::new(alloc);
    ///     let x = network.add_variable(evens.try_clone()?)?;
    ///     let y = network.add_variable(evens.try_clone()?)?;
    ///     let z = network.add_variable(evens)?;
    ///     network.require(Rule::Sum(Constraint { x, y, z }))?;
    ///     assert_eq!(network.settle_within(1)?, Settled::Unfinished);
    ///     assert_eq!(network.settle_within(2)?, Settled::All);
    ///     Ok(())
    /// }
    /// ```
    ///
    /// # Proved
    ///
    /// It fails only if allocation fails. The rules, the number of variables and the marks stay. A rule stays settled unless a variable that it names loses a member. Domains only lose members, and no supported family and no common solution loses one. All: the domains are the greatest supported family, and no rule is left to look at. What was made counts for no more than the budget, also on an error. If some rule is left, one that is not settled counts for more than is left.
    ///
    /// ```text
    /// ensures memory { IfErr result (λ fault. fault ≡ StoreFault.Memory) }
    /// ensures rules { self.new.rules ≡ self.old.rules }
    /// ensures marked { self.new.marked ≡ self.old.marked }
    /// ensures were_settled { self.new.were_settled ≡ self.old.were_settled }
    /// ensures kept_count { length self.new.domains ≡ length self.old.domains }
    /// ensures stays { KeepsSettled self.old.rules (set_at self.old.domains) (set_at self.new.domains) self.old.settled self.new.settled }
    /// ensures keeps { KeepsUnder self.old.rules self.old.domains self.new.domains }
    /// ensures solutions { (point : ℕ → ℤ) → IsCommonPoint self.old.rules (set_at self.old.domains) point → IsCommonPoint self.old.rules (set_at self.new.domains) point }
    /// ensures greatest { IfOk result (λ s. s ≡ Settled.All → IsGreatestUnder self.old.rules (set_at self.old.domains) (set_at self.new.domains)) }
    /// ensures exactly { IfOk result (λ s. s ≡ Settled.All ↔ unsettled_count self.new.settled ≡ 0) }
    /// ensures made { IfOk result (λ s. (by : List Rule) × (cost : ℕ) × AreRulesCounted self.old.rules by cost self.old.domains self.new.domains × (cost ≤ budget)
    ///     × (s ≡ Settled.Unfinished → (next : Rule) × IsWaiting self.new next × (budget < cost + cost_of next self.new.domains))
    ///     × (length by + work_of_rules B.whole self.new ≤ work_of_rules B.whole self.old)) }
    /// ensures made_before { OnErr result ((by : List Rule) × (cost : ℕ) × AreRulesCounted self.old.rules by cost self.old.domains self.new.domains × (cost ≤ budget)
    ///     × (length by + work_of_rules B.whole self.new ≤ work_of_rules B.whole self.old)) }
    /// ```
    ///
    /// Words: [`KeepsSettled`](crate::definitions#KeepsSettled), [`set_at`](crate::definitions#set_at), [`KeepsUnder`](crate::definitions#KeepsUnder), [`IsCommonPoint`](crate::definitions#IsCommonPoint), [`IsGreatestUnder`](crate::definitions#IsGreatestUnder), [`unsettled_count`](crate::definitions#unsettled_count), [`AreRulesCounted`](crate::definitions#AreRulesCounted), [`IsWaiting`](crate::definitions#IsWaiting), [`cost_of`](crate::definitions#cost_of_rule), [`work_of_rules`](crate::definitions#work_of_rules).
    pub fn settle_within(&mut self, budget: u64) -> Result<Settled, StoreFault> {
        let mut left = budget;
        loop {
            match self.narrow_within(left, true)? {
                Step::Settled => return Ok(Settled::All),
                Step::Costly => return Ok(Settled::Unfinished),
                Step::Made(cost) => left -= cost,
            }
        }
    }

    /// Narrows by one rule that is not settled. Returns false, and changes nothing, if all are.
    fn narrow_next(&mut self) -> Result<bool, AllocError> {
        match self.narrow_within(u64::MAX, false)? {
            Step::Settled | Step::Costly => Ok(false),
            Step::Made(_) => Ok(true),
        }
    }

    /// Narrows by one rule that is not settled, if that counts for no more than is left, or is not counted.
    /// Changes nothing if it counts for more, or if all are settled.
    fn narrow_within(&mut self, left: u64, is_counted: bool) -> Result<Step, AllocError> {
        let Some(i) = self.queue.first() else {
            return Ok(Step::Settled);
        };
        let rule = &self.rules[i];
        let c = rule.places();
        let cost = cost_if(is_counted, &self.store, &c);
        if cost > left {
            return Ok(Step::Costly);
        }
        reserve_changes(&mut self.trail, is_logging(&self.marks), 3)?;
        let lost = narrow_logged(
            &mut self.store,
            &mut self.trail,
            &mut self.places,
            &mut self.spares,
            &self.marks,
            rule,
            &c,
        )?;
        self.queue
            .settle(i, lost, &c, &self.store, &self.rules, &self.index);
        Ok(Step::Made(cost))
    }

    /// Whether all rules are settled.
    fn reached(&self) -> Settled {
        if self.queue.is_empty() {
            Settled::All
        } else {
            Settled::Unfinished
        }
    }
}
