// Written by bindings/rust/extract from crates/ivl_search/src/search/rules.rt.
//! The search for points that satisfy rules, which say something of the numbers of two or three
//! variables.
//!
//! ```
//! use intervallum::proved::ivl_search::search::rules::{count, greatest, least, solutions};
//! use intervallum::proved::examples::*;
//!
//! fn main() -> Result<(), std::boxed::Box<dyn std::error::Error>> {
//!     let alloc = Global;
//!     // x and y from 0 to 2, different: six points
//!     let low = IntervalSet::new(alloc, 0, 2)?;
//!     let domains = Vec::from_array(alloc, [ low.try_clone()?, low])?;
//!     let rules = [Rule::Differs { x: 0, y: 1, by: 0 }];
//!     let limits = Limits { solutions: 100, nodes: 100_000 };
//!     assert_eq!(count(alloc, &domains, &rules, limits)?, (6, End::All));
//!     Ok(())
//! }
//! ```

#[allow(unused_imports)]
use crate::rattle::prelude::*;
use super::choice::Wanted;
use super::descent::{Kept, search};
use super::optimum::best_at;
use super::setup::{degrees_of, first_unknown, network_of};
use super::{Best, End, Found, Limits, SearchFault};
use crate::proved::intervallum::interval_set::IntervalSet;
use crate::proved::intervallum::width::Width;
use crate::proved::ivl_rules::rules::Rule;
use crate::rattle::std::alloc::Global;

/// Returns the points over the domains that satisfy all the rules, none of them twice, and whether
/// these are all. An empty domain has no members, so there is then no solution.
///
/// The caller must ensure that each rule names each of its variables once. Check with
/// [`Rule::is_over_different`], or [`all_different`] for a list.
///
/// Each solution takes a node. Returns [`End::Nodes`] only if `limits.nodes` is less than
/// `(2 p - 1) * (c / 500 + 1)` for `c` rules, where `p` is the product of the sizes of the
/// domains, or 1 if that is 0.
///
/// Costs a copy of the domains and the rules, a count of those that name each variable, and for
/// each node its narrowings and a pass over the domains. Memory is that of the solutions, of the
/// domains that one branch replaces, and of the cuts of the branch.
///
/// # Errors
///
/// [`SearchFault::Variable`] for an unknown index, before anything else, and
/// [`SearchFault::Memory`] if allocation fails.
///
/// ```
/// use intervallum::proved::ivl_search::search::rules::{count, greatest, least, solutions};
/// use intervallum::proved::examples::*;
///
/// fn main() -> Result<(), std::boxed::Box<dyn std::error::Error>> {
///     let alloc = Global;
///     // x + 1 <= y and y != 3, for x and y from 0 to 3: x below y, and y 1 or 2
///     let low = IntervalSet::new(alloc, 0, 3)?;
///     let domains = Vec::from_array(alloc, [ low.try_clone()?, low, IntervalSet::new(alloc, 3, 3)?])?;
///     let rules = [Rule::AtMost { x: 0, y: 1, by: 1 }, Rule::Differs { x: 1, y: 2, by: 0 }];
///     let limits = Limits { solutions: 100, nodes: 100_000 };
///     let found = solutions(alloc, &domains, &rules, limits)?;
///     assert_eq!(found.end, End::All);
///     assert_eq!(found.points.len(), 3);
///     Ok(())
/// }
/// ```
///
/// # Proved
///
/// The fault names the first index, in list order, without a domain, exactly when there is one. On success, each point is a solution: it has a member of each domain, in order, and satisfies each rule. No point is there twice. If the search ended with `All`, every solution is there. There are at most `limits.solutions` points, exactly so many if the search ended with `Solutions`, and at most `limits.nodes`. It ends with `Nodes` only if `limits.nodes` is less than `(2 p - 1) * (c / 500 + 1)`, for `c` rules and the product `p` of the sizes of the domains, or 1 if that is 0.
///
/// ```text
/// requires { All AreDifferent rules.now }
/// ensures unknown { (i : ℕ) → (result ≡ Err (SearchFault.Variable i)) ↔ (first_unknown_of_rules (length domains.now) rules.now ≡ Some i) }
/// ensures sound { IfOk result (λ found. All (SolvesRules rules.now domains.now) (map (λ point. map B.value point.items) found.points.items)) }
/// ensures once { IfOk result (λ found. EachOnce (map (λ point. map B.value point.items) found.points.items)) }
/// ensures complete { IfOk result (λ found. found.end ≡ End.All → (point : List ℤ) → SolvesRules rules.now domains.now point → Contains (map (λ point. map B.value point.items) found.points.items) point) }
/// ensures bounded { IfOk result (λ found. length found.points.items ≤ limits.solutions) }
/// ensures full { IfOk result (λ found. found.end ≡ End.Solutions → length found.points.items ≡ limits.solutions) }
/// ensures visited { IfOk result (λ found. length found.points.items ≤ limits.nodes) }
/// ensures enough { IfOk result (λ found. found.end ≡ End.Nodes → limits.nodes < nodes_enough B.whole rules.now domains.now) }
/// ```
///
/// Words: [`AreDifferent`](crate::definitions#AreDifferent), [`first_unknown_of_rules`](crate::definitions#first_unknown_of_rules), [`SolvesRules`](crate::definitions#SolvesRules), [`EachOnce`](crate::definitions#EachOnce), [`nodes_enough`](crate::definitions#nodes_enough).
#[cfg_attr(debug_assertions, track_caller)]
pub fn solutions<B: Width>(
    alloc: Global,
    domains: &[IntervalSet<B>],
    rules: &[Rule],
    limits: Limits,
) -> Result<Found<B>, SearchFault> {
    debug_assert!({ #[allow(unused_imports)] use crate::proved::ivl_interval::ops::*; all_different(rules) }, "{}", "the condition of `solutions` is broken: all_different(rules)");
    if let Some(i) = first_unknown(rules, domains.len()) {
        return Err(SearchFault::Variable(i));
    }
    let mut network = network_of(alloc, domains, rules)?;
    let degrees = degrees_of(alloc, domains.len(), rules)?;
    let mut left = limits;
    let points = Vec::new(alloc);
    let mut found = Kept {
        is_kept: true,
        points,
    };
    let end = search(
        alloc,
        &mut network,
        &degrees,
        Wanted::Least,
        &mut left,
        &mut found,
    )?;
    Ok(Found {
        points: found.points,
        end,
    })
}

/// Searches as [`solutions`] does, without its condition: returns `None` if a rule names
/// a variable twice. Costs what [`solutions`] costs, and a pass over the rules.
///
/// # Errors
///
/// Those of [`solutions`], and only if each rule names each of its variables once.
///
/// # Proved
///
/// `None` is returned, where nothing fails, exactly when some rule names a variable twice. The fault names the first index, in list order, without a domain, exactly when there is one and each rule names each of its variables once. Some: each point is a solution: it has a member of each domain, in order, and satisfies each rule. No point is there twice. If the search ended with `All`, every solution is there. There are at most `limits.solutions` points, exactly so many if the search ended with `Solutions`, and at most `limits.nodes`. It ends with `Nodes` only if `limits.nodes` is less than `solutions` says.
///
/// ```text
/// ensures none { IfOk result (λ o. IsNone o ↔ (¬ (All AreDifferent rules.now))) }
/// ensures unknown { (i : ℕ) → (result ≡ Err (SearchFault.Variable i)) ↔ (All AreDifferent rules.now × (first_unknown_of_rules (length domains.now) rules.now ≡ Some i)) }
/// ensures sound { IfOk result (λ o. IfSome o (λ found. All (SolvesRules rules.now domains.now) (map (λ point. map B.value point.items) found.points.items))) }
/// ensures once { IfOk result (λ o. IfSome o (λ found. EachOnce (map (λ point. map B.value point.items) found.points.items))) }
/// ensures complete { IfOk result (λ o. IfSome o (λ found. found.end ≡ End.All → (point : List ℤ) → SolvesRules rules.now domains.now point → Contains (map (λ point. map B.value point.items) found.points.items) point)) }
/// ensures bounded { IfOk result (λ o. IfSome o (λ found. length found.points.items ≤ limits.solutions)) }
/// ensures full { IfOk result (λ o. IfSome o (λ found. found.end ≡ End.Solutions → length found.points.items ≡ limits.solutions)) }
/// ensures visited { IfOk result (λ o. IfSome o (λ found. length found.points.items ≤ limits.nodes)) }
/// ensures enough { IfOk result (λ o. IfSome o (λ found. found.end ≡ End.Nodes → limits.nodes < nodes_enough B.whole rules.now domains.now)) }
/// ```
///
/// Words: [`AreDifferent`](crate::definitions#AreDifferent), [`first_unknown_of_rules`](crate::definitions#first_unknown_of_rules), [`SolvesRules`](crate::definitions#SolvesRules), [`EachOnce`](crate::definitions#EachOnce), [`nodes_enough`](crate::definitions#nodes_enough).
pub fn try_solutions<B: Width>(
    alloc: Global,
    domains: &[IntervalSet<B>],
    rules: &[Rule],
    limits: Limits,
) -> Result<Option<Found<B>>, SearchFault> {
    if all_different(rules) {
        match solutions(alloc, domains, rules, limits) {
            Ok(found) => Ok(Some(found)),
            Err(fault) => Err(fault),
        }
    } else {
        Ok(None)
    }
}

/// Returns true exactly when each rule names each of its variables once. Then they may be passed to
/// [`solutions`] and [`count`]. Linear, does not allocate.
///
/// ```
/// use intervallum::proved::ivl_search::search::rules::{count, greatest, least, solutions};
/// use intervallum::proved::examples::*;
///
/// fn main() -> Result<(), std::boxed::Box<dyn std::error::Error>> {
///     let alloc = Global;
///     assert!(all_different(&[Rule::Differs { x: 0, y: 1, by: 0 }]));
///     assert!(!all_different(&[Rule::Differs { x: 0, y: 1, by: 0 }, Rule::AtMost { x: 1, y: 1, by: 5 }]));
///     Ok(())
/// }
/// ```
///
/// # Proved
///
/// True exactly when each rule names each of its variables once.
///
/// ```text
/// ensures { IsTrue result ↔ All AreDifferent rules.now }
/// ```
///
/// Words: [`AreDifferent`](crate::definitions#AreDifferent).
pub fn all_different(rules: &[Rule]) -> bool {
    rules.iter().all(|rule| rule.is_over_different())
}

/// Counts the points that [`solutions`] would return with the same limits, and keeps none of them.
/// The count is that of all solutions if the search ended with [`End::All`], and that of some of
/// them if not. Costs what [`solutions`] costs, but for the memory of the solutions.
///
/// The caller must ensure that each rule names each of its variables once. Check with
/// [`Rule::is_over_different`], or [`all_different`] for a list.
///
/// # Errors
///
/// Those of [`solutions`].
///
/// ```
/// use intervallum::proved::ivl_search::search::rules::{count, greatest, least, solutions};
/// use intervallum::proved::examples::*;
///
/// fn main() -> Result<(), std::boxed::Box<dyn std::error::Error>> {
///     let alloc = Global;
///     // three numbers from 0 to 2, all different: six points
///     let low = IntervalSet::new(alloc, 0, 2)?;
///     let domains = Vec::from_array(alloc, [ low.try_clone()?, low.try_clone()?, low])?;
///     let rules = [
///         Rule::Differs { x: 0, y: 1, by: 0 },
///         Rule::Differs { x: 0, y: 2, by: 0 },
///         Rule::Differs { x: 1, y: 2, by: 0 },
///     ];
///     let limits = Limits { solutions: 100, nodes: 100_000 };
///     assert_eq!(count(alloc, &domains, &rules, limits)?, (6, End::All));
///     Ok(())
/// }
/// ```
///
/// # Proved
///
/// The fault names the first index, in list order, without a domain, exactly when there is one. On success, so many different points are solutions, and if the search ended with `All`, there is no other. A solution has a member of each domain, in order, and satisfies each rule. The count is at most `limits.solutions`, exactly that if the search ended with `Solutions`, and at most `limits.nodes`. It ends with `Nodes` only if `limits.nodes` is less than `solutions` says.
///
/// ```text
/// requires { All AreDifferent rules.now }
/// ensures unknown { (i : ℕ) → (result ≡ Err (SearchFault.Variable i)) ↔ (first_unknown_of_rules (length domains.now) rules.now ≡ Some i) }
/// ensures counted { IfOk result (λ r. (points : List (List ℤ)) × (length points ≡ r.0) × Finds (SolvesRules rules.now domains.now) points r.1) }
/// ensures bounded { IfOk result (λ r. r.0 ≤ limits.solutions) }
/// ensures full { IfOk result (λ r. r.1 ≡ End.Solutions → r.0 ≡ limits.solutions) }
/// ensures visited { IfOk result (λ r. r.0 ≤ limits.nodes) }
/// ensures enough { IfOk result (λ r. r.1 ≡ End.Nodes → limits.nodes < nodes_enough B.whole rules.now domains.now) }
/// ```
///
/// Words: [`AreDifferent`](crate::definitions#AreDifferent), [`first_unknown_of_rules`](crate::definitions#first_unknown_of_rules), [`Finds`](crate::definitions#Finds), [`SolvesRules`](crate::definitions#SolvesRules), [`nodes_enough`](crate::definitions#nodes_enough).
#[cfg_attr(debug_assertions, track_caller)]
pub fn count<B: Width>(
    alloc: Global,
    domains: &[IntervalSet<B>],
    rules: &[Rule],
    limits: Limits,
) -> Result<(usize, End), SearchFault> {
    debug_assert!({ #[allow(unused_imports)] use crate::proved::ivl_interval::ops::*; all_different(rules) }, "{}", "the condition of `count` is broken: all_different(rules)");
    if let Some(i) = first_unknown(rules, domains.len()) {
        return Err(SearchFault::Variable(i));
    }
    let mut network = network_of(alloc, domains, rules)?;
    let degrees = degrees_of(alloc, domains.len(), rules)?;
    let mut left = limits;
    let mut found = Kept {
        is_kept: false,
        points: Vec::new(alloc),
    };
    let end = search(
        alloc,
        &mut network,
        &degrees,
        Wanted::Least,
        &mut left,
        &mut found,
    )?;
    Ok((limits.solutions - left.solutions, end))
}

/// Returns a solution in which a variable has its least number: no solution gives it a smaller one.
/// It is one of these if there are several, and none exactly if there is no solution, where the
/// search ended with [`End::All`]. After another end it is the best solution of those that were
/// found.
///
/// Each solution that is found is better than the one before it, and takes a node. Returns
/// [`End::Solutions`] only if as many are found as `limits.solutions` allows; the point is the last of
/// them. If a limit is 0, no point is given.
///
/// The caller must ensure that each rule names each of its variables once. Check with
/// [`Rule::is_over_different`], or [`all_different`] for a list.
///
/// Costs a copy of the domains and the rules, a count of those that name each variable, and at most
/// 64 searches, which share the nodes. Each search looks for one solution among the lower half of
/// the numbers that the variable can still have; then these are cut to what is below it, or to the
/// upper half if there is none. Memory is that of two solutions, of the domains that one branch
/// replaces, and of the cuts of the branch.
///
/// Returns [`End::Nodes`] only if `limits.nodes` is at most `2 p * (c / 500 + 1)`, with `p` and `c`
/// as for [`solutions`].
///
/// # Errors
///
/// [`SearchFault::Variable`] for an unknown index, before anything else: the first one of the
/// rules, or else `variable`. [`SearchFault::Memory`] if allocation fails.
///
/// ```
/// use intervallum::proved::ivl_search::search::rules::{count, greatest, least, solutions};
/// use intervallum::proved::examples::*;
///
/// fn main() -> Result<(), std::boxed::Box<dyn std::error::Error>> {
///     let alloc = Global;
///     // x + 2 <= y and y + 1 <= z, for x, y and z from 0 to 9: the least z is 3
///     let low = IntervalSet::new(alloc, 0, 9)?;
///     let domains = Vec::from_array(alloc, [ low.try_clone()?, low.try_clone()?, low])?;
///     let rules = [Rule::AtMost { x: 0, y: 1, by: 2 }, Rule::AtMost { x: 1, y: 2, by: 1 }];
///     let limits = Limits { solutions: 100, nodes: 100_000 };
///     let best = least(alloc, &domains, &rules, 2, limits)?;
///     assert_eq!(best.end, End::All);
///     assert!(best.point.is_some_and(|point| point.as_slice() == [0, 2, 3].as_slice()));
///     Ok(())
/// }
/// ```
///
/// # Proved
///
/// The fault names the first index of the rules, in list order, without a domain, or else `variable` if it has none, exactly when there is one. On success, the point, if there is one, is a solution: it has a member of each domain, in order, and satisfies each rule. If the search ended with `All`, no solution gives the variable a smaller number, and without a point there is no solution. There is a point only if both limits are at least 1. If the search ended with `Solutions`, the point is the last of `limits.solutions` solutions, each with a smaller number for the variable than the one before it, or there is none if that is 0, and `limits.nodes` is no less than `limits.solutions`. It ends with `Nodes` only if `limits.nodes` is at most `2 p * (c / 500 + 1)`, for `c` rules and the product `p` of the sizes of the domains, or 1 if that is 0.
///
/// ```text
/// requires { All AreDifferent rules.now }
/// ensures unknown { (i : ℕ) → (result ≡ Err (SearchFault.Variable i)) ↔ (first_unknown_or_rules variable (length domains.now) rules.now ≡ Some i) }
/// ensures sound { IfOk result (λ best. IfSome best.point (λ point. SolvesRules rules.now domains.now (map B.value point.items))) }
/// ensures best { IfOk result (λ best. best.end ≡ End.All → IfSome best.point (λ point. IsLeastAt variable (SolvesRules rules.now domains.now) (map B.value point.items))) }
/// ensures none { IfOk result (λ best. best.end ≡ End.All → IfNone best.point ((point : List ℤ) → ¬ (SolvesRules rules.now domains.now point))) }
/// ensures bounded { IfOk result (λ best. IfSome best.point (λ _. (1 ≤ limits.solutions) × (1 ≤ limits.nodes))) }
/// ensures full { IfOk result (λ best. best.end ≡ End.Solutions → FallsTo variable (SolvesRules rules.now domains.now) limits.solutions (option_map (λ point. map B.value point.items) best.point)) }
/// ensures visited { IfOk result (λ best. best.end ≡ End.Solutions → limits.solutions ≤ limits.nodes) }
/// ensures enough { IfOk result (λ best. best.end ≡ End.Nodes → limits.nodes < nodes_for_best B.whole rules.now domains.now) }
/// ```
///
/// Words: [`AreDifferent`](crate::definitions#AreDifferent), [`first_unknown_or_rules`](crate::definitions#first_unknown_or_rules), [`SolvesRules`](crate::definitions#SolvesRules), [`IsLeastAt`](crate::definitions#IsLeastAt), [`FallsTo`](crate::definitions#FallsTo), [`nodes_for_best`](crate::definitions#nodes_for_best).
#[cfg_attr(debug_assertions, track_caller)]
pub fn least<B: Width>(
    alloc: Global,
    domains: &[IntervalSet<B>],
    rules: &[Rule],
    variable: usize,
    limits: Limits,
) -> Result<Best<B>, SearchFault> {
    debug_assert!({ #[allow(unused_imports)] use crate::proved::ivl_interval::ops::*; all_different(rules) }, "{}", "the condition of `least` is broken: all_different(rules)");
    best_at(alloc, domains, rules, variable, limits, Wanted::Least)
}

/// Returns a solution in which a variable has its greatest number, as [`least`] does one with its
/// least: no solution gives it a greater one. Searches greater numbers first, of every variable, and
/// so visits as many nodes as [`least`] does where all numbers have the other sign. Costs as much as
/// that.
///
/// The caller must ensure that each rule names each of its variables once. Check with
/// [`Rule::is_over_different`], or [`all_different`] for a list.
///
/// # Errors
///
/// Those of [`least`].
///
/// ```
/// use intervallum::proved::ivl_search::search::rules::{count, greatest, least, solutions};
/// use intervallum::proved::examples::*;
///
/// fn main() -> Result<(), std::boxed::Box<dyn std::error::Error>> {
///     let alloc = Global;
///     // x + 2 <= y and y + 1 <= z, for x, y and z from 0 to 9: the greatest x is 6
///     let low = IntervalSet::new(alloc, 0, 9)?;
///     let domains = Vec::from_array(alloc, [ low.try_clone()?, low.try_clone()?, low])?;
///     let rules = [Rule::AtMost { x: 0, y: 1, by: 2 }, Rule::AtMost { x: 1, y: 2, by: 1 }];
///     let limits = Limits { solutions: 100, nodes: 100_000 };
///     let best = greatest(alloc, &domains, &rules, 0, limits)?;
///     assert_eq!(best.end, End::All);
///     assert!(best.point.is_some_and(|point| point.as_slice() == [6, 8, 9].as_slice()));
///     Ok(())
/// }
/// ```
///
/// # Proved
///
/// The fault names the first index of the rules, in list order, without a domain, or else `variable` if it has none, exactly when there is one. On success, the point, if there is one, is a solution: it has a member of each domain, in order, and satisfies each rule. If the search ended with `All`, no solution gives the variable a greater number, and without a point there is no solution. There is a point only if both limits are at least 1. If the search ended with `Solutions`, the point is the last of `limits.solutions` solutions, each with a greater number for the variable than the one before it, or there is none if that is 0, and `limits.nodes` is no less than `limits.solutions`. It ends with `Nodes` only if `limits.nodes` is at most what `least` says.
///
/// ```text
/// requires { All AreDifferent rules.now }
/// ensures unknown { (i : ℕ) → (result ≡ Err (SearchFault.Variable i)) ↔ (first_unknown_or_rules variable (length domains.now) rules.now ≡ Some i) }
/// ensures sound { IfOk result (λ best. IfSome best.point (λ point. SolvesRules rules.now domains.now (map B.value point.items))) }
/// ensures best { IfOk result (λ best. best.end ≡ End.All → IfSome best.point (λ point. IsGreatestAt variable (SolvesRules rules.now domains.now) (map B.value point.items))) }
/// ensures none { IfOk result (λ best. best.end ≡ End.All → IfNone best.point ((point : List ℤ) → ¬ (SolvesRules rules.now domains.now point))) }
/// ensures bounded { IfOk result (λ best. IfSome best.point (λ _. (1 ≤ limits.solutions) × (1 ≤ limits.nodes))) }
/// ensures full { IfOk result (λ best. best.end ≡ End.Solutions → RisesTo variable (SolvesRules rules.now domains.now) limits.solutions (option_map (λ point. map B.value point.items) best.point)) }
/// ensures visited { IfOk result (λ best. best.end ≡ End.Solutions → limits.solutions ≤ limits.nodes) }
/// ensures enough { IfOk result (λ best. best.end ≡ End.Nodes → limits.nodes < nodes_for_best B.whole rules.now domains.now) }
/// ```
///
/// Words: [`AreDifferent`](crate::definitions#AreDifferent), [`first_unknown_or_rules`](crate::definitions#first_unknown_or_rules), [`SolvesRules`](crate::definitions#SolvesRules), [`IsGreatestAt`](crate::definitions#IsGreatestAt), [`RisesTo`](crate::definitions#RisesTo), [`nodes_for_best`](crate::definitions#nodes_for_best).
#[cfg_attr(debug_assertions, track_caller)]
pub fn greatest<B: Width>(
    alloc: Global,
    domains: &[IntervalSet<B>],
    rules: &[Rule],
    variable: usize,
    limits: Limits,
) -> Result<Best<B>, SearchFault> {
    debug_assert!({ #[allow(unused_imports)] use crate::proved::ivl_interval::ops::*; all_different(rules) }, "{}", "the condition of `greatest` is broken: all_different(rules)");
    best_at(alloc, domains, rules, variable, limits, Wanted::Greatest)
}
