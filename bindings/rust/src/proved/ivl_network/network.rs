// Written by bindings/rust/extract from crates/ivl_network/src/network.rt.
//! Domains and rules that are added one by one, and narrowing that stops when told.
//!
//! A [`Network`] keeps the rules that were required so far, and which of them have to be looked at again.
//! [`Network::settle`] narrows the domains by these, until nothing changes or a budget is used up; another
//! call goes on.
//!
//! ```
//! use intervallum::proved::examples::*;
//!
//! fn main() -> Result<(), std::boxed::Box<dyn std::error::Error>> {
//!     let alloc = Global;
//!     // x + 1 <= y and y + 1 <= x, for x and y from 0 to 9: no solution, and a member or two goes at a time
//!     let mut network: Network<i32> = Network::new(alloc);
//!     let x = network.add_variable(IntervalSet::new(alloc, 0, 9)?)?;
//!     let y = network.add_variable(IntervalSet::new(alloc, 0, 9)?)?;
//!     network.require(Rule::AtMost { x, y, by: 1 })?;
//!     network.require(Rule::AtMost { x: y, y: x, by: 1 })?;
//!     assert_eq!(network.settle(3)?, Settled::Unfinished);
//!     assert_eq!(network.settle(100)?, Settled::All);
//!     assert!(network.has_empty());
//!     Ok(())
//! }
//! ```

#[allow(unused_imports)]
use crate::rattle::prelude::*;
use crate::proved::intervallum::interval::Interval;
use crate::proved::intervallum::interval_set::IntervalSet;
use crate::proved::intervallum::width::Width;
use crate::proved::ivl_rules::rules::Rule;
use crate::proved::ivl_store::store::{Spares, Store, StoreFault};
use crate::rattle::std::alloc::{AllocError, Global};

mod allowed;
mod change;
mod hashes;
mod index;

mod narrowing;
mod queue;
mod settling;
mod trail;

use allowed::Allowed;
use change::Change;
use index::Index;
use narrowing::restrict_logged;
use queue::Queue;
use trail::{clear_unmarked, is_logging, log_change, reserve_changes, revert_to};

/// What [`Network::settle`] reached.
#[derive(Clone, Copy, Debug, PartialEq, Eq)]
pub enum Settled {
    /// No rule narrows a domain any further.
    All,
    /// The budget is used up, and some rule may narrow a domain further.
    Unfinished,
}

/// Variables with a domain each, and the rules between them so far. A contract sees the two lists, and
/// which rules are settled, so that they need not be looked at again.
///
/// Variables are named by their indexes from 0. Domains only lose members. A call that fails with
/// [`StoreFault::Variable`] leaves the network unchanged.
///
/// A network that was marked, or for which room was reserved, keeps some sets that it does not use any more, 256 at
/// most, each of at most 64 runs, for their memory.
pub struct Network<B: Width> {
    store: Store<B>,
    rules: Vec<Rule>,
    // Which rules name each variable.
    index: Index,
    // Which rules have to be looked at.
    queue: Queue,
    // What takes back each change since the first mark.
    trail: Vec<Change<B>>,
    // For each variable a place of the trail, one more than that at which its domain was kept last.
    places: Vec<usize>,
    // Sets that are not used any more, for their memory.
    spares: Spares<B>,
    // The places of the trail at which there is a mark.
    marks: Vec<usize>,
    // For each mark, whether all rules were settled at it.
    settled_at_marks: Vec<bool>,
}

impl<B: Width> Network<B> {
    /// Creates a network without variables. `O(1)`, does not allocate.
    ///
    /// ```
    /// use intervallum::proved::examples::*;
    ///
    /// fn main() -> Result<(), std::boxed::Box<dyn std::error::Error>> {
    ///     let alloc = Global;
    ///     let network: Network<i32> = Network::new(alloc);
    ///     assert!(network.domains().is_empty() && network.rules().is_empty());
    ///     Ok(())
    /// }
    /// ```
    ///
    /// # Proved
    ///
    /// There is no variable, no rule and no mark.
    ///
    /// ```text
    /// ensures { result ≡ record { domains = []; rules = []; settled = []; marked = []; were_settled = [] } }
    /// ```
    pub fn new(alloc: Global) -> Network<B> {
        Network {
            store: Store::new(alloc, Vec::new(alloc)),
            rules: Vec::new(alloc),
            index: Index::new(alloc),
            queue: Queue::new(alloc),
            trail: Vec::new(alloc),
            places: Vec::new(alloc),
            spares: Spares::new(alloc),
            marks: Vec::new(alloc),
            settled_at_marks: Vec::new(alloc),
        }
    }

    /// Makes room for so many more variables and rules: adding them to a network without a mark reallocates nothing.
    /// Linear in the variables and rules, old and new, where memory is allocated, else `O(1)`.
    ///
    /// # Errors
    ///
    /// Fails only if allocation fails. The network is unchanged whatever the result.
    ///
    /// ```
    /// use intervallum::proved::examples::*;
    ///
    /// fn main() -> Result<(), std::boxed::Box<dyn std::error::Error>> {
    ///     let alloc = Global;
    ///     let mut network: Network<i32> = Network::new(alloc);
    ///     network.reserve(2, 1)?;
    ///     assert!(network.domains().is_empty() && network.rules().is_empty());
    ///     Ok(())
    /// }
    /// ```
    ///
    /// # Proved
    ///
    /// The network is unchanged, whatever the result.
    ///
    /// ```text
    /// ensures same { self.new ≡ self.old }
    /// ```
    pub fn reserve(&mut self, variables: usize, rules: usize) -> Result<(), AllocError> {
        self.spares.make_room()?;
        self.places.reserve(variables)?;
        self.index.reserve(variables, rules)?;
        self.rules.reserve(rules)?;
        self.queue.reserve(rules)?;
        self.store.reserve(variables)?;
        Ok(())
    }

    /// Returns the domains, in the order of the variables. `O(1)`, does not allocate.
    ///
    /// # Proved
    ///
    /// The slice has the domains, in the order of the variables. The runs of each ascend, lie in the range, and neither overlap nor touch.
    ///
    /// ```text
    /// ensures same { result.now ≡ self.now.domains }
    /// ensures runs { All (IsRunListIn B.whole) self.now.domains }
    /// ```
    ///
    /// Words: [`IsRunListIn`](crate::definitions#IsRunListIn).
    pub fn domains(&self) -> &[IntervalSet<B>] {
        self.store.domains()
    }

    /// Returns the rules so far, in the order in which they were first required. `O(1)`, does not
    /// allocate.
    ///
    /// # Proved
    ///
    /// The slice has the rules, in the order in which they were first required. Each names different variables, which have a domain, and each is settled or not.
    ///
    /// ```text
    /// ensures same { result.now ≡ self.now.rules }
    /// ensures different { All AreDifferent self.now.rules }
    /// ensures one_each { length self.now.settled ≡ length self.now.rules }
    /// ensures unsettled { unsettled_count self.now.settled ≤ length self.now.rules }
    /// ensures present { All (ArePresent (length self.now.domains)) self.now.rules }
    /// ```
    ///
    /// Words: [`AreDifferent`](crate::definitions#AreDifferent), [`unsettled_count`](crate::definitions#unsettled_count), [`ArePresent`](crate::definitions#ArePresent).
    pub fn rules(&self) -> &[Rule] {
        self.rules.as_slice()
    }

    /// Returns true exactly when some domain is empty: then no point solves the rules. `O(1)`,
    /// does not allocate.
    ///
    /// # Proved
    ///
    /// True exactly when the domain of some variable has no run.
    ///
    /// ```text
    /// ensures empty { IsTrue result ↔ Any (λ L. L ≡ []) self.now.domains }
    /// ensures variable { IsTrue result ↔ HasEmpty (length self.now.domains) (set_at self.now.domains) }
    /// ```
    ///
    /// Words: [`HasEmpty`](crate::definitions#HasEmpty), [`set_at`](crate::definitions#set_at).
    pub fn has_empty(&self) -> bool {
        self.store.has_empty()
    }

    /// Adds a variable with this domain after the others, and returns its index. Amortized `O(1)`.
    ///
    /// # Errors
    ///
    /// Fails only if allocation fails. The network is unchanged after an error.
    ///
    /// ```
    /// use intervallum::proved::examples::*;
    ///
    /// fn main() -> Result<(), std::boxed::Box<dyn std::error::Error>> {
    ///     let alloc = Global;
    ///     let mut network: Network<i32> = Network::new(alloc);
    ///     assert_eq!(network.add_variable(IntervalSet::new(alloc, 3, 4)?)?, 0);
    ///     assert!(network.domains()[0] == IntervalSet::new(alloc, 3, 4)?);
    ///     Ok(())
    /// }
    /// ```
    ///
    /// # Proved
    ///
    /// On success, the domain is added after the others, and the result is its index: the number of variables before. If it fails, the network is unchanged.
    ///
    /// ```text
    /// ensures index { IfOk result (λ i. i ≡ length self.old.domains) }
    /// ensures added { OnOk result (self.new ≡ record { domains = self.old.domains ++ domain ∷ []; rules = self.old.rules; settled = self.old.settled; marked = self.old.marked; were_settled = self.old.were_settled }) }
    /// ensures err { OnErr result (self.new ≡ self.old) }
    /// ```
    pub fn add_variable(&mut self, domain: IntervalSet<B>) -> Result<usize, AllocError> {
        let is_kept = is_logging(&self.marks);
        reserve_changes(&mut self.trail, is_kept, 1)?;
        self.places.reserve(1)?;
        self.index.reserve_variable()?;
        let index = self.store.add_variable(domain)?;
        self.index.push_variable();
        self.places.push_reserved(0);
        log_change(&mut self.trail, is_kept, Change::Variable);
        Ok(index)
    }

    /// Requires that a rule holds, together with those required before it. One that was required
    /// before changes nothing. No domain is narrowed before [`Network::settle`].
    ///
    /// The caller must ensure that the rule names each of its variables once. Check with
    /// [`Rule::is_over_different`].
    ///
    /// Amortized `O(1)`: a rule is compared with those before it whose hashes fall together with its own.
    ///
    /// # Errors
    ///
    /// [`StoreFault::Variable`] for an unknown index, and [`StoreFault::Memory`] if allocation
    /// fails. The network is then unchanged.
    ///
    /// ```
    /// use intervallum::proved::examples::*;
    ///
    /// fn main() -> Result<(), std::boxed::Box<dyn std::error::Error>> {
    ///     let alloc = Global;
    ///     let mut network: Network<i32> = Network::new(alloc);
    ///     let x = network.add_variable(IntervalSet::new(alloc, 0, 9)?)?;
    ///     let y = network.add_variable(IntervalSet::new(alloc, 0, 9)?)?;
    ///     let z = network.add_variable(IntervalSet::new(alloc, 0, 9)?)?;
    ///     network.require(Rule::Sum(Constraint { x, y, z }))?;
    ///     network.require(Rule::Differs { x, y, by: 0 })?;
    ///     network.require(Rule::Differs { x, y, by: 0 })?;
    ///     assert_eq!(network.rules().len(), 2);
    ///     Ok(())
    /// }
    /// ```
    ///
    /// # Proved
    ///
    /// The fault names the first index of the rule, in its order, without a domain, exactly when there is one. Domains and marks stay. On success, the rule is among the rules: where it was, and then nothing changes, or at the end, and then it is not settled. If it fails, the network is unchanged.
    ///
    /// ```text
    /// requires { AreDifferent rule }
    /// ensures unknown { (i : ℕ) → (result ≡ Err (StoreFault.Variable i)) ↔ (first_unknown (length self.old.domains) (places_of rule) ≡ Some i) }
    /// ensures domains { self.new.domains ≡ self.old.domains }
    /// ensures marked { self.new.marked ≡ self.old.marked }
    /// ensures were_settled { self.new.were_settled ≡ self.old.were_settled }
    /// ensures required { OnOk result (IsRuleRequired rule self.old.rules self.new.rules) }
    /// ensures known { Contains self.old.rules rule → self.new ≡ self.old }
    /// ensures added { OnOk result (¬ (Contains self.old.rules rule) → self.new ≡ record { domains = self.old.domains; rules = self.old.rules ++ rule ∷ []; settled = self.old.settled ++ false ∷ []; marked = self.old.marked; were_settled = self.old.were_settled }) }
    /// ensures refused { OnErr result (self.new ≡ self.old) }
    /// ```
    ///
    /// Words: [`AreDifferent`](crate::definitions#AreDifferent), [`first_unknown`](crate::definitions#first_unknown), [`places_of`](crate::definitions#places), [`IsRuleRequired`](crate::definitions#IsRuleRequired).
    #[cfg_attr(debug_assertions, track_caller)]
    pub fn require(&mut self, rule: Rule) -> Result<(), StoreFault> {
        debug_assert!({ #[allow(unused_imports)] use crate::proved::ivl_interval::ops::*; rule.is_over_different() }, "{}", "the condition of `require` is broken: rule.is_over_different()");
        if let Some(i) = rule.first_unknown(self.store.domains().len()) {
            return Err(StoreFault::Variable(i));
        }
        if !self.index.has(&self.rules, &rule) {
            self.push(rule)?;
        }
        Ok(())
    }

    /// Adds a rule at the end, not settled.
    fn push(&mut self, rule: Rule) -> Result<(), AllocError> {
        let is_kept = is_logging(&self.marks);
        reserve_changes(&mut self.trail, is_kept, 1)?;
        self.index.reserve_rule()?;
        self.rules.reserve(1)?;
        self.queue.push()?;
        self.index.push_leaves(&rule, &self.store);
        self.index.push_rule(&rule);
        self.rules.push_reserved(rule);
        log_change(&mut self.trail, is_kept, Change::Require);
        Ok(())
    }

    /// Cuts a domain to its members in this set. Other domains are not narrowed before
    /// [`Network::settle`]. Costs an intersection and a pass over the rules that name the variable.
    ///
    /// # Errors
    ///
    /// [`StoreFault::Variable`] for an unknown index, and [`StoreFault::Memory`] if allocation
    /// fails. The network is then unchanged.
    ///
    /// ```
    /// use intervallum::proved::examples::*;
    ///
    /// fn main() -> Result<(), std::boxed::Box<dyn std::error::Error>> {
    ///     let alloc = Global;
    ///     let mut network: Network<i32> = Network::new(alloc);
    ///     network.add_variable(IntervalSet::new(alloc, 0, 9)?)?;
    ///     network.restrict(0, &IntervalSet::new(alloc, 5, 20)?)?;
    ///     assert!(network.domains()[0] == IntervalSet::new(alloc, 5, 9)?);
    ///     Ok(())
    /// }
    /// ```
    ///
    /// # Proved
    ///
    /// The fault names the variable exactly when it has no domain. Rules and marks stay. On success, the domain keeps its members in the set, and the others keep theirs. Where it has no others, nothing changes, nor on an error. A rule stays settled unless a variable that it names loses a member.
    ///
    /// ```text
    /// ensures unknown { (i : ℕ) → (result ≡ Err (StoreFault.Variable i)) ↔ ((i ≡ variable) × (length self.old.domains ≤ variable)) }
    /// ensures rules { self.new.rules ≡ self.old.rules }
    /// ensures marked { self.new.marked ≡ self.old.marked }
    /// ensures were_settled { self.new.were_settled ≡ self.old.were_settled }
    /// ensures kept_count { length self.new.domains ≡ length self.old.domains }
    /// ensures cut { OnOk result (IsCutAt variable (Covers allowed.now) (set_at self.old.domains) (set_at self.new.domains)) }
    /// ensures same { IsSubset (set_at self.old.domains variable) (Covers allowed.now) → self.new ≡ self.old }
    /// ensures refused { OnErr result (self.new ≡ self.old) }
    /// ensures stays { KeepsSettled self.old.rules (set_at self.old.domains) (set_at self.new.domains) self.old.settled self.new.settled }
    /// ```
    ///
    /// Words: [`IsCutAt`](crate::definitions#IsCutAt), [`Covers`](crate::definitions#Covers), [`set_at`](crate::definitions#set_at), [`IsSubset`](crate::definitions#IsSubset), [`KeepsSettled`](crate::definitions#KeepsSettled).
    pub fn restrict(&mut self, variable: usize, allowed: &IntervalSet<B>) -> Result<(), StoreFault> {
        self.cut(variable, allowed)
    }

    /// Cuts a domain to its members in this interval, which may be empty, as [`Network::restrict`] does to those in
    /// a set. Costs a look at the ends of the domain and, where it loses a member, a binary search, a copy of what is
    /// left, in the memory of a set that is kept for it if it has at most 64 runs, and a pass over the rules that name
    /// the variable.
    ///
    /// # Errors
    ///
    /// Those of [`Network::restrict`].
    ///
    /// ```
    /// use intervallum::proved::examples::*;
    ///
    /// fn main() -> Result<(), std::boxed::Box<dyn std::error::Error>> {
    ///     let alloc = Global;
    ///     let mut network: Network<i32> = Network::new(alloc);
    ///     network.add_variable(IntervalSet::new(alloc, 0, 9)?)?;
    ///     network.restrict_to_interval(0, Interval::new(5, 20))?;
    ///     assert!(network.domains()[0] == IntervalSet::new(alloc, 5, 9)?);
    ///     Ok(())
    /// }
    /// ```
    ///
    /// # Proved
    ///
    /// The fault names the variable exactly when it has no domain. Rules and marks stay. On success, the domain keeps its members in the interval, and the others keep theirs. Where it has no others, nothing changes, nor on an error. A rule stays settled unless a variable that it names loses a member.
    ///
    /// ```text
    /// ensures unknown { (i : ℕ) → (result ≡ Err (StoreFault.Variable i)) ↔ ((i ≡ variable) × (length self.old.domains ≤ variable)) }
    /// ensures rules { self.new.rules ≡ self.old.rules }
    /// ensures marked { self.new.marked ≡ self.old.marked }
    /// ensures were_settled { self.new.were_settled ≡ self.old.were_settled }
    /// ensures kept_count { length self.new.domains ≡ length self.old.domains }
    /// ensures cut { OnOk result (IsCutAt variable (IsBetween allowed) (set_at self.old.domains) (set_at self.new.domains)) }
    /// ensures same { IsSubset (set_at self.old.domains variable) (IsBetween allowed) → self.new ≡ self.old }
    /// ensures refused { OnErr result (self.new ≡ self.old) }
    /// ensures stays { KeepsSettled self.old.rules (set_at self.old.domains) (set_at self.new.domains) self.old.settled self.new.settled }
    /// ```
    ///
    /// Words: [`IsCutAt`](crate::definitions#IsCutAt), [`IsBetween`](crate::definitions#IsBetween), [`set_at`](crate::definitions#set_at), [`IsSubset`](crate::definitions#IsSubset), [`KeepsSettled`](crate::definitions#KeepsSettled).
    pub fn restrict_to_interval(
        &mut self,
        variable: usize,
        allowed: Interval<B>,
    ) -> Result<(), StoreFault> {
        self.cut(variable, &allowed)
    }

    /// Cuts a domain to its members that are allowed.
    fn cut<A: Allowed<B>>(&mut self, variable: usize, allowed: &A) -> Result<(), StoreFault> {
        if variable >= self.store.domains().len() {
            return Err(StoreFault::Variable(variable));
        }
        reserve_changes(&mut self.trail, is_logging(&self.marks), 1)?;
        let lost = restrict_logged(
            &mut self.store,
            &mut self.trail,
            &mut self.places,
            &mut self.spares,
            &self.marks,
            variable,
            allowed,
        )?;
        self.queue.wake(
            lost,
            true,
            true,
            variable,
            &self.store,
            &self.rules,
            &self.index,
        );
        Ok(())
    }

    /// Marks the network as it is, and returns the index of the mark. From the first mark on the
    /// network keeps domains that are replaced, until the marks are undone or dropped: what a cut or a
    /// narrowing replaces, if it replaces a domain for the first time since the last mark. `O(1)`
    /// amortized; no domain is copied. A mark makes room to keep a domain of each variable, which takes
    /// memory linear in the variables, and the first one also for the sets that are kept for their memory.
    ///
    /// # Errors
    ///
    /// Fails only if allocation fails. The network is unchanged after an error.
    ///
    /// ```
    /// use intervallum::proved::examples::*;
    ///
    /// fn main() -> Result<(), std::boxed::Box<dyn std::error::Error>> {
    ///     let alloc = Global;
    ///     let mut network: Network<i32> = Network::new(alloc);
    ///     let x = network.add_variable(IntervalSet::new(alloc, 0, 9)?)?;
    ///     let mark = network.mark()?;
    ///     network.restrict(x, &IntervalSet::new(alloc, 5, 20)?)?;
    ///     network.add_variable(IntervalSet::new(alloc, 1, 1)?)?;
    ///     assert!(network.undo_to(mark));
    ///     assert!(network.domains().len() == 1 && network.domains()[0] == IntervalSet::new(alloc, 0, 9)?);
    ///     assert!(!network.undo_to(mark));
    ///     Ok(())
    /// }
    /// ```
    ///
    /// # Proved
    ///
    /// On success, the result is the number of marks before, and the domains, the rules, and whether all of these are settled are kept for the mark. If it fails, the network is unchanged.
    ///
    /// ```text
    /// ensures index { IfOk result (λ mark. mark ≡ length self.old.marked) }
    /// ensures index_of_flag { IfOk result (λ mark. mark ≡ length self.old.were_settled) }
    /// ensures marked { OnOk result (self.new ≡ record { domains = self.old.domains; rules = self.old.rules; settled = self.old.settled; marked = self.old.marked ++ (record { domains = self.old.domains; rules = self.old.rules }) ∷ []; were_settled = self.old.were_settled ++ (unsettled_count self.old.settled == 0) ∷ [] }) }
    /// ensures err { OnErr result (self.new ≡ self.old) }
    /// ```
    ///
    /// Words: [`unsettled_count`](crate::definitions#unsettled_count).
    pub fn mark(&mut self) -> Result<usize, AllocError> {
        let mark = self.marks.len();
        self.spares.make_room()?;
        reserve_changes(&mut self.trail, true, self.store.domains().len())?;
        self.settled_at_marks.reserve(1)?;
        self.marks.push(self.trail.len())?;
        self.settled_at_marks.push_reserved(self.queue.is_empty());
        Ok(mark)
    }

    /// Takes back all changes since a mark: variables, rules and domains are what they were at
    /// the mark. This mark and later ones are gone. Returns false, and changes nothing, if there is
    /// no such mark.
    ///
    /// If no rule was left to look at when the network was marked, none is afterwards, and the next
    /// [`Network::settle`] looks only at what changes then. Otherwise the rules that name a variable whose
    /// domain is put back have to be looked at again, but for those that take nothing.
    ///
    /// Linear in the changes and in the rules that wait; where rules were left to look at, for each domain
    /// that is put back also a pass over the rules that name its variable. A rule that is dropped before it
    /// was looked at costs a pass over those that wait. Does not allocate.
    ///
    /// ```
    /// use intervallum::proved::examples::*;
    ///
    /// fn main() -> Result<(), std::boxed::Box<dyn std::error::Error>> {
    ///     let alloc = Global;
    ///     let mut network: Network<i32> = Network::new(alloc);
    ///     let x = network.add_variable(IntervalSet::new(alloc, 0, 9)?)?;
    ///     let y = network.add_variable(IntervalSet::new(alloc, 0, 9)?)?;
    ///     network.require(Rule::AtMost { x, y, by: 0 })?;
    ///     network.settle(10)?;
    ///     let mark = network.mark()?;
    ///     network.restrict(x, &IntervalSet::new(alloc, 5, 9)?)?;
    ///     network.settle(10)?;
    ///     network.undo_to(mark);
    ///     assert_eq!(network.settle(0)?, Settled::All);
    ///     Ok(())
    /// }
    /// ```
    ///
    /// # Proved
    ///
    /// True exactly when there is such a mark; otherwise nothing changes. Domains and rules are then what they were at the mark, and only the marks before it are left. If all rules were settled at the mark, all are.
    ///
    /// ```text
    /// ensures told { IsTrue result ↔ (mark < length self.old.marked) }
    /// ensures none { result ≡ false → self.new ≡ self.old }
    /// ensures undone { result ≡ true → HoldsAt (λ past. (self.new.domains ≡ past.domains) × (self.new.rules ≡ past.rules)) self.old.marked mark }
    /// ensures marked { result ≡ true → self.new.marked ≡ take mark self.old.marked }
    /// ensures were_settled { result ≡ true → self.new.were_settled ≡ take mark self.old.were_settled }
    /// ensures settled { result ≡ true → HoldsAt (λ were. were ≡ true → unsettled_count self.new.settled ≡ 0) self.old.were_settled mark }
    /// ```
    ///
    /// Words: [`unsettled_count`](crate::definitions#unsettled_count).
    pub fn undo_to(&mut self, mark: usize) -> bool {
        if mark >= self.marks.len() {
            return false;
        }
        let start = self.marks[mark];
        let were_settled = self.settled_at_marks[mark];
        revert_to(
            &mut self.trail,
            start,
            !were_settled,
            &mut self.store,
            &mut self.spares,
            &mut self.rules,
            &mut self.index,
            &mut self.queue,
        );
        self.queue.settle_all(were_settled);
        self.marks.truncate(mark);
        self.settled_at_marks.truncate(mark);
        self.places.truncate(self.store.domains().len());
        true
    }

    /// Drops a mark and later ones, if there are any. All changes stay. Without a mark, the network
    /// keeps no domain that is replaced. Linear in the changes since the first mark if it drops that, else
    /// `O(1)`. Does not allocate.
    ///
    /// ```
    /// use intervallum::proved::examples::*;
    ///
    /// fn main() -> Result<(), std::boxed::Box<dyn std::error::Error>> {
    ///     let alloc = Global;
    ///     let mut network: Network<i32> = Network::new(alloc);
    ///     let mark = network.mark()?;
    ///     network.add_variable(IntervalSet::new(alloc, 0, 9)?)?;
    ///     network.drop_marks(mark);
    ///     assert!(!network.undo_to(mark) && network.domains().len() == 1);
    ///     Ok(())
    /// }
    /// ```
    ///
    /// # Proved
    ///
    /// Only the marks before this one are left. All else stays.
    ///
    /// ```text
    /// ensures { self.new ≡ record { domains = self.old.domains; rules = self.old.rules; settled = self.old.settled; marked = take mark self.old.marked; were_settled = take mark self.old.were_settled } }
    /// ```
    pub fn drop_marks(&mut self, mark: usize) {
        self.marks.truncate(mark);
        self.settled_at_marks.truncate(mark);
        clear_unmarked(&self.marks, &mut self.trail);
    }
}
