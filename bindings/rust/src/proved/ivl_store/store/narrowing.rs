// Written by bindings/rust/extract from crates/ivl_store/src/store/narrowing.rt.
//! Narrowing by one constraint, and by a list in rounds.

#[allow(unused_imports)]
use crate::rattle::prelude::*;
use super::constraint::first_unknown_of;
use super::narrowed_sets::narrowed_sets;
use super::settled::{Lost, none_settled, settle_after};
use super::{Constraint, Store, StoreFault};
use crate::proved::intervallum::width::Width;
use crate::rattle::std::alloc::AllocError;

impl<B: Width> Store<B> {
    /// Narrows by one constraint: `x` keeps its members that are a member of `z` less one of `y`,
    /// `y` keeps those that are a member of `z` less one of `x`, and `z` keeps those that are a sum
    /// of both, all over the domains before the call. Returns true exactly when some domain lost a
    /// member.
    ///
    /// For a variable that is named twice the last of these holds. For each domain looks for the
    /// sums or differences of the other two in it, at the cost of
    /// [`results_in_set`](crate::proved::ivl_within::within::results_in_set); `O(1)` if all three are single runs. A
    /// domain that keeps its members is not written.
    ///
    /// # Errors
    ///
    /// [`StoreFault::Variable`] for an unknown index, and [`StoreFault::Memory`] if allocation
    /// fails. The store is then unchanged.
    ///
    /// ```
    /// use intervallum::proved::examples::*;
    ///
    /// fn main() -> Result<(), std::boxed::Box<dyn std::error::Error>> {
    ///     let alloc = Global;
    ///     // x + y = z, for x from 0 to 10, y from 3 to 4 and z from 5 to 6
    ///     let domains = Vec::from_array(alloc, [
    ///         IntervalSet::new(alloc, 0, 10)?, IntervalSet::new(alloc, 3, 4)?, IntervalSet::new(alloc, 5, 6)?])?;
    ///     let mut store: Store<i32> = Store::new(alloc, domains);
    ///     assert!(store.narrow(&Constraint { x: 0, y: 1, z: 2 })?);
    ///     assert!(store.domains()[0] == IntervalSet::new(alloc, 1, 3)?);
    ///     Ok(())
    /// }
    /// ```
    ///
    /// # Proved
    ///
    /// The fault names the first of `x`, `y` and `z` that is no variable of the store, exactly when there is one. If it fails, the domains are unchanged. On success, `x` keeps its members that are a member of `z` less one of `y`, `y` those that are a member of `z` less one of `x`, and `z` those that are a sum of both, all by the old domains; for a variable that is named twice the last of these holds, and the other domains stay. True exactly when some domain lost a member. On success, domains within the old ones that the constraint supports lie within the new ones, so no solution is lost. Of three different variables, just the members of solutions are left.
    ///
    /// ```text
    /// ensures unknown { (i : ℕ) → (result ≡ Err (StoreFault.Variable i)) ↔ (first_unknown (length self.old) constraint.now ≡ Some i) }
    /// ensures refused { OnErr result (self.new ≡ self.old) }
    /// ensures kept_count { length self.new ≡ length self.old }
    /// ensures narrowed { OnOk result ((i : ℕ) (v : ℤ) → set_at self.new i v ↔ Narrowed constraint.now (set_at self.old) i v) }
    /// ensures lost { IfOk result (λ b. IsTrue b ↔ LostMember (set_at self.old) (set_at self.new)) }
    /// ensures families { OnOk result ((family : List (List (ℤ × ℤ))) → Supports constraint.now (set_at family) → LiesWithin (set_at family) (set_at self.old) → LiesWithin (set_at family) (set_at self.new)) }
    /// ensures solutions { OnOk result ((point : ℕ → ℤ) → IsSolution constraint.now (set_at self.old) point → IsSolution constraint.now (set_at self.new) point) }
    /// ensures exact { OnOk result (AreDistinct constraint.now → (i : ℕ) → Names constraint.now i → (v : ℤ) → set_at self.new i v ↔ HasSolutionAt constraint.now (set_at self.old) i v) }
    /// ```
    ///
    /// Words: [`first_unknown`](crate::definitions#first_unknown), [`set_at`](crate::definitions#set_at), [`Narrowed`](crate::definitions#Narrowed), [`LostMember`](crate::definitions#LostMember), [`Supports`](crate::definitions#Supports), [`LiesWithin`](crate::definitions#LiesWithin), [`IsSolution`](crate::definitions#IsSolution), [`AreDistinct`](crate::definitions#AreDistinct), [`Names`](crate::definitions#Names), [`HasSolutionAt`](crate::definitions#HasSolutionAt).
    pub fn narrow(&mut self, constraint: &Constraint) -> Result<bool, StoreFault> {
        if let Some(i) = constraint.first_unknown(self.domains.len()) {
            return Err(StoreFault::Variable(i));
        }
        let lost = self.narrow_known(constraint)?;
        Ok(lost.any())
    }

    /// The same for variables that the store has.
    fn narrow_known(&mut self, c: &Constraint) -> Result<Lost, AllocError> {
        let (x, y, z) = narrowed_sets(&self.domains, c)?;
        let lost = Lost {
            x: x.is_some(),
            y: y.is_some(),
            z: z.is_some(),
        };
        self.swap(c.x, x);
        self.swap(c.y, y);
        self.swap(c.z, z);
        Ok(lost)
    }

    /// Narrows by constraint `i`, unless it is settled.
    fn narrow_next(
        &mut self,
        constraints: &[Constraint],
        i: usize,
        settled: &mut Vec<bool>,
    ) -> Result<bool, AllocError> {
        if settled[i] {
            return Ok(false);
        }
        let lost = self.narrow_known(&constraints[i])?;
        settle_after(constraints, i, lost, settled);
        Ok(lost.any())
    }

    /// Narrows by each constraint in turn. Returns true exactly when a member was lost.
    pub(super) fn round(
        &mut self,
        constraints: &[Constraint],
        settled: &mut Vec<bool>,
    ) -> Result<bool, AllocError> {
        let mut lost = false;
        for i in 0..constraints.len() {
            let less = self.narrow_next(constraints, i, settled)?;
            lost = lost || less;
        }
        Ok(lost)
    }

    /// Narrows by the constraints in rounds, until a round changes no domain or `rounds` rounds are
    /// made. A round narrows by each constraint once, in list order. Returns true after a round
    /// that changed no domain, and false if `rounds` rounds were made and each of them changed one,
    /// so always if `rounds` is 0.
    ///
    /// Domains lose no member that is in a common solution of the constraints. After true, no
    /// constraint narrows any further; if each has three variables, the domains are the greatest
    /// ones in which every member is supported, whatever the order of the list.
    ///
    /// Costs what its narrowings cost, and a pass over the constraints for each round and for each
    /// domain that changes. Reserves one flag per constraint. A constraint of three different variables whose
    /// domains did not change since it narrowed them is skipped in `O(1)`.
    ///
    /// # Errors
    ///
    /// [`StoreFault::Variable`] for the first unknown index in list order, before anything changes.
    /// [`StoreFault::Memory`] if allocation fails: the store is then as the last completed
    /// narrowing left it.
    ///
    /// ```
    /// use intervallum::proved::examples::*;
    ///
    /// fn main() -> Result<(), std::boxed::Box<dyn std::error::Error>> {
    ///     let alloc = Global;
    ///     // a + one = b and b + one = a, for a and b from 0 to 9
    ///     let domains = Vec::from_array(alloc, [
    ///         IntervalSet::new(alloc, 0, 9)?, IntervalSet::new(alloc, 0, 9)?, IntervalSet::new(alloc, 1, 1)?])?;
    ///     let mut store: Store<i32> = Store::new(alloc, domains);
    ///     let constraints = [Constraint { x: 0, y: 2, z: 1 }, Constraint { x: 1, y: 2, z: 0 }];
    ///     assert!(!store.propagate(&constraints, 3)?);
    ///     assert!(store.propagate(&constraints, 1)? && store.domains()[0].is_empty());
    ///     Ok(())
    /// }
    /// ```
    ///
    /// # Proved
    ///
    /// The fault names the first index, in list order, without a variable, exactly when there is one. The domains are then unchanged. Domains only lose members. Domains within the old ones that each constraint supports lie within the new ones. So no point that solves all the constraints is lost. True: no constraint narrows any further, and if each has three different variables, the domains are the greatest within the old ones that each constraint supports. False: the domains lost at least `rounds` members. What whole rounds leave: all of them if each removed a member, or those before the first that removed none. Out of memory: what whole rounds and the first narrowings of one more leave.
    ///
    /// ```text
    /// ensures unknown { (i : ℕ) → (result ≡ Err (StoreFault.Variable i)) ↔ (first_unknown_in (length self.old) constraints.now ≡ Some i) }
    /// ensures unchanged { (i : ℕ) → result ≡ Err (StoreFault.Variable i) → self.new ≡ self.old }
    /// ensures kept_count { length self.new ≡ length self.old }
    /// ensures keeps { Keeps constraints.now self.old self.new }
    /// ensures solutions { (point : ℕ → ℤ) → IsCommonSolution constraints.now (set_at self.old) point → IsCommonSolution constraints.now (set_at self.new) point }
    /// ensures fixed { IfOk result (λ b. IsTrue b → All (IsFixed (set_at self.new)) constraints.now) }
    /// ensures greatest { IfOk result (λ b. IsTrue b → All AreDistinct constraints.now → IsGreatestFamily constraints.now (set_at self.old) (set_at self.new)) }
    /// ensures fewer { IfOk result (λ b. b ≡ false → rounds + total B.whole self.new ≤ total B.whole self.old) }
    /// ensures steps { IfOk result (λ b. (k : ℕ) × After constraints.now k (set_at self.old) (set_at self.new)
    ///     × EachLost constraints.now k (set_at self.old)
    ///     × (b ≡ false → k ≡ rounds)
    ///     × (b ≡ true → (k < rounds) × All (IsFixed (set_at self.new)) constraints.now)) }
    /// ensures memory { result ≡ Err StoreFault.Memory → (k : ℕ) × (j : ℕ) × (k ≤ rounds) × (j ≤ length constraints.now)
    ///     × EachLost constraints.now k (set_at self.old) × AfterSome constraints.now k j (set_at self.old) (set_at self.new) }
    /// ```
    ///
    /// Words: [`first_unknown_in`](crate::definitions#first_unknown_of), [`Keeps`](crate::definitions#Keeps), [`IsCommonSolution`](crate::definitions#IsCommonSolution), [`set_at`](crate::definitions#set_at), [`IsFixed`](crate::definitions#IsFixed), [`AreDistinct`](crate::definitions#AreDistinct), [`IsGreatestFamily`](crate::definitions#IsGreatestFamily), [`total`](crate::definitions#total), [`After`](crate::definitions#After), [`EachLost`](crate::definitions#EachLost), [`AfterSome`](crate::definitions#AfterSome).
    pub fn propagate(
        &mut self,
        constraints: &[Constraint],
        rounds: usize,
    ) -> Result<bool, StoreFault> {
        if let Some(i) = first_unknown_of(constraints, self.domains.len()) {
            return Err(StoreFault::Variable(i));
        }
        let mut settled = none_settled(self.alloc, constraints.len())?;
        for _ in 0..rounds {
            if !self.round(constraints, &mut settled)? {
                return Ok(true);
            }
        }
        Ok(false)
    }
}
