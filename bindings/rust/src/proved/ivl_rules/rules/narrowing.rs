// Written by bindings/rust/extract from crates/ivl_rules/src/rules/narrowing.rt.
//! Narrowing by one rule.

#[allow(unused_imports)]
use crate::rattle::prelude::*;
use super::Rule;
use super::windows::{
    at_least, at_most, has_number, narrowed_to_moved, narrowed_to_none, narrowed_to_window_in,
    narrowed_without, shift_back_of, shift_of,
};
use crate::proved::intervallum::interval_set::IntervalSet;
use crate::proved::intervallum::ops::{Bounded, Contains, IsEmpty, IsSingleton};
use crate::proved::intervallum::width::Width;
use crate::proved::ivl_store::store::narrowed_sets::{LeftOfThree, narrowed_by_sum_in};
use crate::proved::ivl_store::store::{Constraint, Spares};
use crate::rattle::std::alloc::AllocError;

/// What narrowing leaves of two domains, with `None` in place of one that loses no member.
type LeftOfTwo<B> = (Option<IntervalSet<B>>, Option<IntervalSet<B>>);

/// Narrows by a rule: a domain that it names keeps its members that are in a point of the domains which satisfies the
/// rule, and the others stay. Returns true exactly when some domain lost a member.
///
/// The caller must ensure that the rule names each of its variables once, and that each has a domain. Check with
/// [`Rule::is_over_different`] and [`Rule::first_unknown`].
///
/// Costs for an `AtMost` or a `Differs` a look at the ends of its domains, or a look-up where one is a single number,
/// and a copy of what is left of one that loses a member; for a `Shifted` a look-up of each run of one domain in the
/// other, and an intersection for one that loses a member; for a `Sum` what
/// [`narrowed_by_sum`](crate::proved::ivl_store::store::narrowed_sets::narrowed_by_sum) costs. A domain that keeps its members is not
/// written, and no rule of two variables allocates where none is lost.
///
/// # Errors
///
/// Fails only if allocation fails. The domains are then unchanged.
///
/// ```
/// use intervallum::proved::examples::*;
///
/// fn main() -> Result<(), std::boxed::Box<dyn std::error::Error>> {
///     let alloc = Global;
///     // x != y, where y is 4
///     let mut domains = Vec::from_array(alloc, [ IntervalSet::new(alloc, 0, 9)?, IntervalSet::new(alloc, 4, 4)?])?;
///     assert!(narrow(&mut domains, &Rule::Differs { x: 0, y: 1, by: 0 })?);
///     let others = IntervalSet::new(alloc, 0, 3)?.union(&IntervalSet::new(alloc, 5, 9)?)?;
///     assert!(domains[0] == others);
///     assert!(!narrow(&mut domains, &Rule::Differs { x: 0, y: 1, by: 0 })?);
///     Ok(())
/// }
/// ```
///
/// # Proved
///
/// If it fails, the domains are unchanged. On success, a domain that the rule names keeps exactly the members that are in a point of the old domains which satisfies the rule, and the others stay. True exactly when some domain lost a member.
///
/// ```text
/// requires different { AreDifferent rule.now }
/// requires present { AllPresent (length domains.old) (places_of rule.now) }
/// ensures refused { OnErr result (domains.new ≡ domains.old) }
/// ensures kept_count { OnOk result (length domains.new ≡ length domains.old) }
/// ensures lost { IfOk result (λ b. IsTrue b ↔ LostMember (set_at domains.old) (set_at domains.new)) }
/// ensures narrowed { OnOk result ((i : ℕ) (v : ℤ) → set_at domains.new i v ↔ NarrowedBy rule.now (set_at domains.old) i v) }
/// ensures exact { OnOk result ((i : ℕ) → NamesOf rule.now i → (v : ℤ) → set_at domains.new i v ↔ HasPointAt rule.now (set_at domains.old) i v) }
/// ```
///
/// Words: [`AreDifferent`](crate::definitions#AreDifferent), [`AllPresent`](crate::definitions#AllPresent), [`places_of`](crate::definitions#places), [`LostMember`](crate::definitions#LostMember), [`set_at`](crate::definitions#set_at), [`NarrowedBy`](crate::definitions#NarrowedBy), [`NamesOf`](crate::definitions#NamesOf), [`HasPointAt`](crate::definitions#HasPointAt).
#[cfg_attr(debug_assertions, track_caller)]
pub fn narrow<B: Width>(domains: &mut [IntervalSet<B>], rule: &Rule) -> Result<bool, AllocError> {
    debug_assert!({ #[allow(unused_imports)] use crate::proved::ivl_interval::ops::*; rule.is_over_different() && rule.first_unknown(domains.len()).is_none() }, "{}", "the condition of `narrow` is broken: rule.is_over_different() && rule.first_unknown(domains.len()).is_none()");
    let (x, y, z) = narrowed_at_places(domains, rule)?;
    let lost = is_any(&x, &y, &z);
    let c = rule.places();
    put(domains, c.x, x);
    put(domains, c.y, y);
    put(domains, c.z, z);
    Ok(lost)
}

/// Returns true only if narrowing by the rule takes no member: by the ends of its domains, and of a `Differs` where
/// one domain is a single number, by a look-up of what that forbids. Of `Sum` and `Shifted`, and where a domain is
/// empty, it returns false. `O(1)`, or `O(log n)` for a look-up in `n` runs. Does not allocate.
///
/// The caller must ensure that the rule names each of its variables once, and that each has a domain. Check with
/// [`Rule::is_over_different`] and [`Rule::first_unknown`].
///
/// ```
/// use intervallum::proved::examples::*;
///
/// fn main() -> Result<(), std::boxed::Box<dyn std::error::Error>> {
///     let alloc = Global;
///     // x != y, for x and y from 0 to 9; then y is 4
///     let mut domains = Vec::from_array(alloc, [ IntervalSet::new(alloc, 0, 9)?, IntervalSet::new(alloc, 0, 9)?])?;
///     let differ = Rule::Differs { x: 0, y: 1, by: 0 };
///     assert!(takes_nothing(&domains, &differ));
///     domains[1] = IntervalSet::new(alloc, 4, 4)?;
///     assert!(!takes_nothing(&domains, &differ));
///     Ok(())
/// }
/// ```
#[inline(always)]
///
/// # Proved
///
/// True only if each member of a domain that the rule names is in a point of the domains which satisfies the rule.
///
/// ```text
/// requires different { AreDifferent rule.now }
/// requires present { AllPresent (length domains.now) (places_of rule.now) }
/// ensures { result ≡ true → SupportsAll rule.now (set_at domains.now) }
/// ```
///
/// Words: [`AreDifferent`](crate::definitions#AreDifferent), [`AllPresent`](crate::definitions#AllPresent), [`places_of`](crate::definitions#places), [`SupportsAll`](crate::definitions#SupportsAll), [`set_at`](crate::definitions#set_at).
#[cfg_attr(debug_assertions, track_caller)]
pub fn takes_nothing<B: Width>(domains: &[IntervalSet<B>], rule: &Rule) -> bool {
    debug_assert!({ #[allow(unused_imports)] use crate::proved::ivl_interval::ops::*; rule.is_over_different() && rule.first_unknown(domains.len()).is_none() }, "{}", "the condition of `takes_nothing` is broken: rule.is_over_different() && rule.first_unknown(domains.len()).is_none()");
    match rule {
        Rule::Sum(_) => false,
        Rule::Shifted { x: _, y: _, by: _ } => false,
        Rule::AtMost { x, y, by } => are_at_most(&domains[*x], &domains[*y], by),
        Rule::Differs { x, y, by } => are_differing(&domains[*x], &domains[*y], by),
    }
}

/// Whether two sets have a member, and each member of both stands in a pair of which the first and `by` are at most
/// the second.
fn are_at_most<B: Width>(x: &IntervalSet<B>, y: &IntervalSet<B>, by: &i64) -> bool {
    x.in_whole();
    y.in_whole();
    if x.is_empty() || y.is_empty() {
        return false;
    }
    let shift = shift_of(by);
    if y.lower().number() < x.lower().number() + shift {
        return false;
    }
    if y.upper().number() < x.upper().number() + shift {
        return false;
    }
    true
}

/// Whether two sets have a member, and each member of both stands in a pair of which the first and `by` are not the
/// second.
#[inline(always)]
fn are_differing<B: Width>(x: &IntervalSet<B>, y: &IntervalSet<B>, by: &i64) -> bool {
    x.in_whole();
    y.in_whole();
    if x.is_empty() || y.is_empty() {
        return false;
    }
    if y.is_singleton() {
        return lacks_moved(x, y, shift_back_of(by));
    }
    if x.is_singleton() {
        return lacks_moved(y, x, shift_of(by));
    }
    true
}

/// Whether `x` does not have the number that the one of `y` and `by` make.
#[inline(always)]
fn lacks_moved<B: Width>(x: &IntervalSet<B>, y: &IntervalSet<B>, by: i128) -> bool {
    !has_number(x, y.lower().number() + by)
}

/// Whether a set was made for one place at least.
fn is_any<B: Width>(
    x: &Option<IntervalSet<B>>,
    y: &Option<IntervalSet<B>>,
    z: &Option<IntervalSet<B>>,
) -> bool {
    x.is_some() || y.is_some() || z.is_some()
}

/// Puts what is left in place of a domain.
fn put<B: Width>(domains: &mut [IntervalSet<B>], i: usize, left: Option<IntervalSet<B>>) {
    if let Some(set) = left {
        domains[i] = set;
    }
}

/// Returns what narrowing by a rule leaves of the domains of its variables, in the order of [`Rule::places`], with
/// `None` for one that loses no member. Costs what [`narrow`] costs.
///
/// The caller must ensure that the rule names each of its variables once, and no variable without a domain. Check with
/// [`Rule::is_over_different`] and [`Rule::first_unknown`].
///
/// # Errors
///
/// Fails only if allocation fails.
///
/// ```
/// use intervallum::proved::examples::*;
///
/// fn main() -> Result<(), std::boxed::Box<dyn std::error::Error>> {
///     let alloc = Global;
///     let low = IntervalSet::new(alloc, 0, 4)?;
///     let domains = Vec::from_array(alloc, [ low.try_clone()?, low])?;
///     let (x, y, z) = narrowed_at_places(&domains, &Rule::AtMost { x: 0, y: 1, by: 1 })?;
///     assert!(x == Some(IntervalSet::new(alloc, 0, 3)?) && y == Some(IntervalSet::new(alloc, 1, 4)?));
///     assert!(z.is_none());
///     Ok(())
/// }
/// ```
#[inline]
///
/// # Proved
///
/// On success, what is left of the domains of the rule's variables, in their order: of each the members that are in a point of the domains which satisfies the rule, or `None` exactly when all are. A rule of two variables has `None` as its third.
///
/// ```text
/// requires different { AreDifferent rule.now }
/// requires present { AllPresent (length domains.now) (places_of rule.now) }
/// ensures { IfOk result (λ r. AreLeftAtPlaces B.whole (places_of rule.now) (HasPointAt rule.now (set_at domains.now)) domains.now r.0 r.1 r.2) }
/// ```
///
/// Words: [`AreDifferent`](crate::definitions#AreDifferent), [`AllPresent`](crate::definitions#AllPresent), [`places_of`](crate::definitions#places), [`AreLeftAtPlaces`](crate::definitions#AreLeftAtPlaces), [`HasPointAt`](crate::definitions#HasPointAt), [`set_at`](crate::definitions#set_at).
#[cfg_attr(debug_assertions, track_caller)]
pub fn narrowed_at_places<B: Width>(
    domains: &[IntervalSet<B>],
    rule: &Rule,
) -> Result<LeftOfThree<B>, AllocError> {
    debug_assert!({ #[allow(unused_imports)] use crate::proved::ivl_interval::ops::*; rule.is_over_different() && rule.first_unknown(domains.len()).is_none() }, "{}", "the condition of `narrowed_at_places` is broken: rule.is_over_different() && rule.first_unknown(domains.len()).is_none()");
    let mut spares = Spares::new(domains[rule.places().x].allocator());
    narrowed_at_places_in(domains, rule, &mut spares)
}

/// Returns what [`narrowed_at_places`] returns, under its conditions. What a sum or an `AtMost` leaves is made in the memory
/// of spare sets, as [`narrowed_by_sum_in`](crate::proved::ivl_store::store::narrowed_sets::narrowed_by_sum_in) and
/// [`narrowed_to_window_in`] do. Costs what [`narrow`] costs.
///
/// # Errors
///
/// Fails only if allocation fails.
///
/// ```
/// use intervallum::proved::examples::*;
///
/// fn main() -> Result<(), std::boxed::Box<dyn std::error::Error>> {
///     let alloc = Global;
///     let mut spares = Spares::new(alloc);
///     let low = IntervalSet::new(alloc, 0, 4)?;
///     let domains = Vec::from_array(alloc, [ low.try_clone()?, low])?;
///     let (x, y, _) = narrowed_at_places_in(&domains, &Rule::Differs { x: 0, y: 1, by: 0 }, &mut spares)?;
///     assert!(x.is_none() && y.is_none());
///     Ok(())
/// }
/// ```
#[inline]
///
/// # Proved
///
/// On success, what is left of the domains of the rule's variables, in their order: of each the members that are in a point of the domains which satisfies the rule, or `None` exactly when all are. A rule of two variables has `None` as its third.
///
/// ```text
/// requires different { AreDifferent rule.now }
/// requires present { AllPresent (length domains.now) (places_of rule.now) }
/// ensures { IfOk result (λ r. AreLeftAtPlaces B.whole (places_of rule.now) (HasPointAt rule.now (set_at domains.now)) domains.now r.0 r.1 r.2) }
/// ```
///
/// Words: [`AreDifferent`](crate::definitions#AreDifferent), [`AllPresent`](crate::definitions#AllPresent), [`places_of`](crate::definitions#places), [`AreLeftAtPlaces`](crate::definitions#AreLeftAtPlaces), [`HasPointAt`](crate::definitions#HasPointAt), [`set_at`](crate::definitions#set_at).
#[cfg_attr(debug_assertions, track_caller)]
pub fn narrowed_at_places_in<B: Width>(
    domains: &[IntervalSet<B>],
    rule: &Rule,
    spares: &mut Spares<B>,
) -> Result<LeftOfThree<B>, AllocError> {
    debug_assert!({ #[allow(unused_imports)] use crate::proved::ivl_interval::ops::*; rule.is_over_different() && rule.first_unknown(domains.len()).is_none() }, "{}", "the condition of `narrowed_at_places_in` is broken: rule.is_over_different() && rule.first_unknown(domains.len()).is_none()");
    match rule {
        Rule::Sum(c) => narrowed_by_sum(domains, c, spares),
        Rule::Shifted { x, y, by } => {
            let (x, y) = narrowed_moved(&domains[*x], &domains[*y], by)?;
            Ok((x, y, None))
        }
        Rule::AtMost { x, y, by } => {
            let (x, y) = narrowed_at_most(&domains[*x], &domains[*y], by, spares)?;
            Ok((x, y, None))
        }
        Rule::Differs { x, y, by } => {
            let (x, y) = narrowed_differing(&domains[*x], &domains[*y], by)?;
            Ok((x, y, None))
        }
    }
}

/// Returns the variable and the number that narrowing by the rule takes, where that is found by a look-up: of a
/// `Differs` where one domain is a single number and the other one has what that forbids, and more. Of other rules, and
/// of other domains, it returns `None`, whatever narrowing takes. `O(1)`, or `O(log n)` for a look-up in `n` runs. Does
/// not allocate.
///
/// The caller must ensure that the rule names each of its variables once, and that each has a domain. Check with
/// [`Rule::is_over_different`] and [`Rule::first_unknown`].
///
/// ```
/// use intervallum::proved::examples::*;
///
/// fn main() -> Result<(), std::boxed::Box<dyn std::error::Error>> {
///     let alloc = Global;
///     // x != y, where y is 4
///     let domains = Vec::from_array(alloc, [ IntervalSet::new(alloc, 0, 9)?, IntervalSet::new(alloc, 4, 4)?])?;
///     assert_eq!(lone_loss(&domains, &Rule::Differs { x: 0, y: 1, by: 0 }), Some((0, 4)));
///     Ok(())
/// }
/// ```
#[inline]
///
/// # Proved
///
/// Some: the rule is a `Differs`, and narrowing by it takes this number from this variable, and no other member.
///
/// ```text
/// requires different { AreDifferent rule.now }
/// requires present { AllPresent (length domains.now) (places_of rule.now) }
/// ensures one { IfSome result (λ taken. TakesOne rule.now (set_at domains.now) taken.0 (B.value taken.1)) }
/// ensures differs { IfSome result (λ _. needs_singles rule.now ≡ true) }
/// ```
///
/// Words: [`AreDifferent`](crate::definitions#AreDifferent), [`AllPresent`](crate::definitions#AllPresent), [`places_of`](crate::definitions#places), [`TakesOne`](crate::definitions#TakesOne), [`set_at`](crate::definitions#set_at), [`needs_singles`](crate::definitions#needs_singles).
#[cfg_attr(debug_assertions, track_caller)]
pub fn lone_loss<B: Width>(domains: &[IntervalSet<B>], rule: &Rule) -> Option<(usize, B)> {
    debug_assert!({ #[allow(unused_imports)] use crate::proved::ivl_interval::ops::*; rule.is_over_different() && rule.first_unknown(domains.len()).is_none() }, "{}", "the condition of `lone_loss` is broken: rule.is_over_different() && rule.first_unknown(domains.len()).is_none()");
    match rule {
        Rule::Sum(_) => None,
        Rule::Shifted { x: _, y: _, by: _ } => None,
        Rule::AtMost { x: _, y: _, by: _ } => None,
        Rule::Differs { x, y, by } => lost_of_differing(domains, *x, *y, by),
    }
}

/// Returns the variable and the number that a `Differs` takes, where one of the two is a single number, and forbids
/// that one of several of the other.
#[inline]
fn lost_of_differing<B: Width>(
    domains: &[IntervalSet<B>],
    x: usize,
    y: usize,
    by: &i64,
) -> Option<(usize, B)> {
    if let Some(value) = forbidden(&domains[x], &domains[y], shift_back_of(by)) {
        return Some((x, value));
    }
    match forbidden(&domains[y], &domains[x], shift_of(by)) {
        Some(value) => Some((y, value)),
        None => None,
    }
}

/// Returns the number that the one of `y` and `by` make, where `x` has it and others.
#[inline]
fn forbidden<B: Width>(x: &IntervalSet<B>, y: &IntervalSet<B>, by: i128) -> Option<B> {
    x.in_whole();
    y.in_whole();
    if !y.is_singleton() || x.is_singleton() {
        return None;
    }
    let value = B::from_number(y.lower().number() + by)?;
    if x.contains(&value) {
        Some(value)
    } else {
        None
    }
}

/// Returns what is left of two sets where a member of the first and `by` are one of the second.
fn narrowed_moved<B: Width>(
    x: &IntervalSet<B>,
    y: &IntervalSet<B>,
    by: &i64,
) -> Result<LeftOfTwo<B>, AllocError> {
    let left_of_x = narrowed_to_moved(x, y, shift_back_of(by))?;
    let left_of_y = narrowed_to_moved(y, x, shift_of(by))?;
    Ok((left_of_x, left_of_y))
}

/// Returns what is left of two sets where a member of the first and `by` are at most one of the
/// second.
fn narrowed_at_most<B: Width>(
    x: &IntervalSet<B>,
    y: &IntervalSet<B>,
    by: &i64,
    spares: &mut Spares<B>,
) -> Result<LeftOfTwo<B>, AllocError> {
    let shift = shift_of(by);
    x.in_whole();
    y.in_whole();
    let left_of_x = if y.is_empty() {
        narrowed_to_none(x)
    } else {
        narrowed_to_window_in(x, at_most(y.upper(), shift), spares)?
    };
    let left_of_y = if x.is_empty() {
        narrowed_to_none(y)
    } else {
        narrowed_to_window_in(y, at_least(x.lower(), shift), spares)?
    };
    Ok((left_of_x, left_of_y))
}

/// Returns what is left of two sets where a member of the first and `by` are not one of the second.
fn narrowed_differing<B: Width>(
    x: &IntervalSet<B>,
    y: &IntervalSet<B>,
    by: &i64,
) -> Result<LeftOfTwo<B>, AllocError> {
    x.in_whole();
    y.in_whole();
    let left_of_x = if y.is_empty() {
        narrowed_to_none(x)
    } else {
        narrowed_from(x, y, shift_back_of(by))?
    };
    let left_of_y = if x.is_empty() {
        narrowed_to_none(y)
    } else {
        narrowed_from(y, x, shift_of(by))?
    };
    Ok((left_of_x, left_of_y))
}

/// Returns the members of `x` that are not each member of `y` and `by`, where `y` has a member.
fn narrowed_from<B: Width>(
    x: &IntervalSet<B>,
    y: &IntervalSet<B>,
    by: i128,
) -> Result<Option<IntervalSet<B>>, AllocError> {
    x.in_whole();
    let number = y.lower().number();
    if number != y.upper().number() {
        return Ok(None);
    }
    narrowed_without(x, number + by)
}

/// Returns what is left at x, y and z of a sum.
fn narrowed_by_sum<B: Width>(
    domains: &[IntervalSet<B>],
    c: &Constraint,
    spares: &mut Spares<B>,
) -> Result<LeftOfThree<B>, AllocError> {
    narrowed_by_sum_in(&domains[c.x], &domains[c.y], &domains[c.z], spares)
}
