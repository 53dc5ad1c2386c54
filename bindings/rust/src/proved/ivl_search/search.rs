// Written by bindings/rust/extract from crates/ivl_search/src/search.rt.
//! Searches for the points that solve constraints `x + y = z` over finite domains. The module [`rules`]
//! searches for those that satisfy rules of other kinds.
//!
//! A point gives each variable, named by its index from 0, a number of its domain; it is a solution
//! if each constraint holds at it. [`solutions`] returns the solutions, none of them twice, and says
//! whether these are all. [`least`] and [`greatest`] return one in which a variable has its least or
//! greatest number.
//!
//! The search narrows the domains by the constraints. Of those with two members or more it takes
//! the one whose size is least, divided by how many constraints name its variable, and of several
//! the one whose ends are nearest to each other. It cuts this in two: the least member and the
//! others, or halves if it has more than 64. It searches the lower part first; [`greatest`] cuts
//! off the greatest member, and searches the upper part first. The cuts on the way from the root
//! are a list in memory, so the stack does not grow with them. The order in which solutions are
//! found is no part of the contract.

#[allow(unused_imports)]
use crate::rattle::prelude::*;
use crate::proved::intervallum::interval_set::IntervalSet;
use crate::proved::intervallum::width::Width;
use crate::proved::ivl_store::store::Constraint;
use crate::rattle::std::alloc::{AllocError, Global};

mod choice;
mod descent;
mod optimum;
pub mod rules;
mod setup;
mod steps;
mod sums;

use sums::{first_unknown, first_unknown_or, rules_of};

/// How many narrowings one node takes at most. A caller with a budget of narrowings divides it by
/// this number, to get [`Limits::nodes`].
pub const NARROWINGS_PER_NODE: u64 = 500;

/// How long a search may go on.
#[derive(Clone, Copy, Debug, PartialEq, Eq)]
pub struct Limits {
    /// The search stops when it has found so many solutions.
    pub solutions: usize,
    /// The search visits so many nodes at most. A node is a choice of domains that it narrows, by
    /// [`NARROWINGS_PER_NODE`] narrowings at most; where these do not suffice, the same domains count
    /// as a further node.
    pub nodes: u64,
}

/// Why a search ended.
#[derive(Clone, Copy, Debug, PartialEq, Eq)]
pub enum End {
    /// All solutions are found.
    All,
    /// So many solutions are found as the limit allows. There may be others.
    Solutions,
    /// So many nodes are visited as the limit allows. There may be other solutions.
    Nodes,
}

/// The solutions that a search found, and why it ended.
#[derive(Debug)]
pub struct Found<B> {
    /// The solutions. Each has a number for each variable, in the order of the variables.
    pub points: Vec<Vec<B>>,
    /// Why the search ended.
    pub end: End,
}

/// The best solution that a search found, and why it ended.
#[derive(Debug)]
pub struct Best<B> {
    /// The solution, if one was found. It has a number for each variable, in the order of the
    /// variables.
    pub point: Option<Vec<B>>,
    /// Why the search ended. With [`End::All`] there is no better solution, and none at all if no
    /// point is given.
    pub end: End,
}

/// Why a search failed.
#[derive(Clone, Copy, Debug, PartialEq, Eq)]
pub enum SearchFault {
    /// No domain has this index, which a constraint or a rule names. It is the first such index, one
    /// after another, and within one in the order `x`, `y`, `z`.

    Variable(usize),
    /// An allocation failed.

    Memory,
}

impl core::fmt::Display for SearchFault {
    fn fmt(&self, f: &mut core::fmt::Formatter<'_>) -> core::fmt::Result {
        match self {
            Self::Variable(x0) => write!(f, "no variable {0}", x0),
            Self::Memory => write!(f, "memory"),
        }
    }
}

impl core::error::Error for SearchFault {}

/// Proved, with these words of the trait:
///
/// ```text
/// from_gives = { λ _ e. e ≡ Memory }
/// ```
impl From<AllocError> for SearchFault {
    fn from(_: AllocError) -> SearchFault {
        SearchFault::Memory
    }
}

/// Returns the points that solve all the constraints over the domains, none of them twice, and
/// whether these are all. An empty domain has no members, so there is then no solution.
///
/// The caller must ensure that each constraint has three different variables. Check with
/// [`Constraint::distinct`], or [`all_distinct`] for a list.
///
/// Each solution takes a node. Returns [`End::Nodes`] only if `limits.nodes` is less than
/// `(2 p - 1) * (c / 500 + 1)` for `c` constraints, where `p` is the product of the sizes of the
/// domains, or 1 if that is 0.
///
/// Costs a copy of the domains and the constraints, a count of those that name each variable, and
/// for each node its narrowings and a pass over the domains. Memory is that of the solutions, of
/// the domains that one branch replaces, and of the cuts of the branch.
///
/// # Errors
///
/// [`SearchFault::Variable`] for an unknown index, before anything else, and
/// [`SearchFault::Memory`] if allocation fails.
///
/// ```
/// use intervallum::proved::examples::*;
///
/// fn main() -> Result<(), std::boxed::Box<dyn std::error::Error>> {
///     let alloc = Global;
///     // x + y = z, for x and y from 0 to 2 and z 3 or 4: three points
///     let low = IntervalSet::new(alloc, 0, 2)?;
///     let domains = Vec::from_array(alloc, [ low.try_clone()?, low, IntervalSet::new(alloc, 3, 4)?])?;
///     let constraints = [Constraint { x: 0, y: 1, z: 2 }];
///     let limits = Limits { solutions: 100, nodes: 100_000 };
///     let found = solutions(alloc, &domains, &constraints, limits)?;
///     assert_eq!(found.end, End::All);
///     assert_eq!(found.points.len(), 3);
///     Ok(())
/// }
/// ```
///
/// # Proved
///
/// The fault names the first index, in list order, without a domain, exactly when there is one. On success, each point is a solution: it has a member of each domain, in order, and satisfies each constraint. No point is there twice. If the search ended with `All`, every solution is there. There are at most `limits.solutions` points, exactly so many if the search ended with `Solutions`, and at most `limits.nodes`. It ends with `Nodes` only if `limits.nodes` is less than `(2 p - 1) * (c / 500 + 1)`, for `c` constraints and the product `p` of the sizes of the domains, or 1 if that is 0.
///
/// ```text
/// requires { All AreDistinct constraints.now }
/// ensures unknown { (i : ℕ) → (result ≡ Err (SearchFault.Variable i)) ↔ (first_unknown_of (length domains.now) constraints.now ≡ Some i) }
/// ensures sound { IfOk result (λ found. All (Solves constraints.now domains.now) (map (λ point. map B.value point.items) found.points.items)) }
/// ensures once { IfOk result (λ found. EachOnce (map (λ point. map B.value point.items) found.points.items)) }
/// ensures complete { IfOk result (λ found. found.end ≡ End.All → (point : List ℤ) → Solves constraints.now domains.now point → Contains (map (λ point. map B.value point.items) found.points.items) point) }
/// ensures bounded { IfOk result (λ found. length found.points.items ≤ limits.solutions) }
/// ensures full { IfOk result (λ found. found.end ≡ End.Solutions → length found.points.items ≡ limits.solutions) }
/// ensures visited { IfOk result (λ found. length found.points.items ≤ limits.nodes) }
/// ensures enough { IfOk result (λ found. found.end ≡ End.Nodes → limits.nodes < nodes_enough B.whole constraints.now domains.now) }
/// ```
///
/// Words: [`AreDistinct`](crate::definitions#AreDistinct), [`first_unknown_of`](crate::definitions#first_unknown_of), [`Solves`](crate::definitions#Solves), [`EachOnce`](crate::definitions#EachOnce), [`nodes_enough`](crate::definitions#nodes_enough).
#[cfg_attr(debug_assertions, track_caller)]
pub fn solutions<B: Width>(
    alloc: Global,
    domains: &[IntervalSet<B>],
    constraints: &[Constraint],
    limits: Limits,
) -> Result<Found<B>, SearchFault> {
    debug_assert!({ #[allow(unused_imports)] use crate::proved::ivl_interval::ops::*; all_distinct(constraints) }, "{}", "the condition of `solutions` is broken: all_distinct(constraints)");
    if let Some(i) = first_unknown(constraints, domains.len()) {
        return Err(SearchFault::Variable(i));
    }
    let rules = rules_of(alloc, constraints)?;
    rules::solutions(alloc, domains, &rules, limits)
}

/// Searches as [`solutions`] does, without its condition: returns `None` if a constraint has a
/// variable twice. Costs what [`solutions`] costs, and a pass over the constraints.
///
/// # Errors
///
/// Those of [`solutions`], and only if each constraint has three different variables.
///
/// # Proved
///
/// `None` is returned, where nothing fails, exactly when some constraint has a variable twice. The fault names the first index, in list order, without a domain, exactly when there is one and each constraint has three different variables. Some: each point is a solution: it has a member of each domain, in order, and satisfies each constraint. No point is there twice. If the search ended with `All`, every solution is there. There are at most `limits.solutions` points, exactly so many if the search ended with `Solutions`, and at most `limits.nodes`. It ends with `Nodes` only if `limits.nodes` is less than `solutions` says.
///
/// ```text
/// ensures none { IfOk result (λ o. IsNone o ↔ (¬ (All AreDistinct constraints.now))) }
/// ensures unknown { (i : ℕ) → (result ≡ Err (SearchFault.Variable i)) ↔ (All AreDistinct constraints.now × (first_unknown_of (length domains.now) constraints.now ≡ Some i)) }
/// ensures sound { IfOk result (λ o. IfSome o (λ found. All (Solves constraints.now domains.now) (map (λ point. map B.value point.items) found.points.items))) }
/// ensures once { IfOk result (λ o. IfSome o (λ found. EachOnce (map (λ point. map B.value point.items) found.points.items))) }
/// ensures complete { IfOk result (λ o. IfSome o (λ found. found.end ≡ End.All → (point : List ℤ) → Solves constraints.now domains.now point → Contains (map (λ point. map B.value point.items) found.points.items) point)) }
/// ensures bounded { IfOk result (λ o. IfSome o (λ found. length found.points.items ≤ limits.solutions)) }
/// ensures full { IfOk result (λ o. IfSome o (λ found. found.end ≡ End.Solutions → length found.points.items ≡ limits.solutions)) }
/// ensures visited { IfOk result (λ o. IfSome o (λ found. length found.points.items ≤ limits.nodes)) }
/// ensures enough { IfOk result (λ o. IfSome o (λ found. found.end ≡ End.Nodes → limits.nodes < nodes_enough B.whole constraints.now domains.now)) }
/// ```
///
/// Words: [`AreDistinct`](crate::definitions#AreDistinct), [`first_unknown_of`](crate::definitions#first_unknown_of), [`Solves`](crate::definitions#Solves), [`EachOnce`](crate::definitions#EachOnce), [`nodes_enough`](crate::definitions#nodes_enough).
pub fn try_solutions<B: Width>(
    alloc: Global,
    domains: &[IntervalSet<B>],
    constraints: &[Constraint],
    limits: Limits,
) -> Result<Option<Found<B>>, SearchFault> {
    if all_distinct(constraints) {
        match solutions(alloc, domains, constraints, limits) {
            Ok(found) => Ok(Some(found)),
            Err(fault) => Err(fault),
        }
    } else {
        Ok(None)
    }
}

/// Returns true exactly when each constraint has three different variables. Then they may be passed
/// to [`solutions`] and [`count`]. Linear, does not allocate.
///
/// ```
/// use intervallum::proved::examples::*;
///
/// fn main() -> Result<(), std::boxed::Box<dyn std::error::Error>> {
///     let alloc = Global;
///     assert!(all_distinct(&[Constraint { x: 0, y: 1, z: 2 }]));
///     assert!(!all_distinct(&[Constraint { x: 0, y: 1, z: 2 }, Constraint { x: 0, y: 0, z: 2 }]));
///     Ok(())
/// }
/// ```
///
/// # Proved
///
/// True exactly when each constraint has three different variables.
///
/// ```text
/// ensures { IsTrue result ↔ All AreDistinct constraints.now }
/// ```
///
/// Words: [`AreDistinct`](crate::definitions#AreDistinct).
pub fn all_distinct(constraints: &[Constraint]) -> bool {
    constraints.iter().all(|c| c.distinct())
}

/// Counts the points that [`solutions`] would return with the same limits, and keeps none of them.
/// The count is that of all solutions if the search ended with [`End::All`], and that of some of
/// them if not. Costs what [`solutions`] costs, but for the memory of the solutions.
///
/// The caller must ensure that each constraint has three different variables. Check with
/// [`Constraint::distinct`], or [`all_distinct`] for a list.
///
/// # Errors
///
/// Those of [`solutions`].
///
/// ```
/// use intervallum::proved::examples::*;
///
/// fn main() -> Result<(), std::boxed::Box<dyn std::error::Error>> {
///     let alloc = Global;
///     // x + y = z, for x and y from 0 to 2 and z 3 or 4: three points
///     let low = IntervalSet::new(alloc, 0, 2)?;
///     let domains = Vec::from_array(alloc, [ low.try_clone()?, low, IntervalSet::new(alloc, 3, 4)?])?;
///     let constraints = [Constraint { x: 0, y: 1, z: 2 }];
///     let limits = Limits { solutions: 100, nodes: 100_000 };
///     assert_eq!(count(alloc, &domains, &constraints, limits)?, (3, End::All));
///     Ok(())
/// }
/// ```
///
/// # Proved
///
/// The fault names the first index, in list order, without a domain, exactly when there is one. On success, so many different points are solutions, and if the search ended with `All`, there is no other. A solution has a member of each domain, in order, and satisfies each constraint. The count is at most `limits.solutions`, exactly that if the search ended with `Solutions`, and at most `limits.nodes`. It ends with `Nodes` only if `limits.nodes` is less than `solutions` says.
///
/// ```text
/// requires { All AreDistinct constraints.now }
/// ensures unknown { (i : ℕ) → (result ≡ Err (SearchFault.Variable i)) ↔ (first_unknown_of (length domains.now) constraints.now ≡ Some i) }
/// ensures counted { IfOk result (λ r. (points : List (List ℤ)) × (length points ≡ r.0) × Finds (Solves constraints.now domains.now) points r.1) }
/// ensures bounded { IfOk result (λ r. r.0 ≤ limits.solutions) }
/// ensures full { IfOk result (λ r. r.1 ≡ End.Solutions → r.0 ≡ limits.solutions) }
/// ensures visited { IfOk result (λ r. r.0 ≤ limits.nodes) }
/// ensures enough { IfOk result (λ r. r.1 ≡ End.Nodes → limits.nodes < nodes_enough B.whole constraints.now domains.now) }
/// ```
///
/// Words: [`AreDistinct`](crate::definitions#AreDistinct), [`first_unknown_of`](crate::definitions#first_unknown_of), [`Finds`](crate::definitions#Finds), [`Solves`](crate::definitions#Solves), [`nodes_enough`](crate::definitions#nodes_enough).
#[cfg_attr(debug_assertions, track_caller)]
pub fn count<B: Width>(
    alloc: Global,
    domains: &[IntervalSet<B>],
    constraints: &[Constraint],
    limits: Limits,
) -> Result<(usize, End), SearchFault> {
    debug_assert!({ #[allow(unused_imports)] use crate::proved::ivl_interval::ops::*; all_distinct(constraints) }, "{}", "the condition of `count` is broken: all_distinct(constraints)");
    if let Some(i) = first_unknown(constraints, domains.len()) {
        return Err(SearchFault::Variable(i));
    }
    let rules = rules_of(alloc, constraints)?;
    rules::count(alloc, domains, &rules, limits)
}

/// Returns a solution in which a variable has its least number: no solution gives it a smaller one.
/// It is one of these if there are several, and none exactly if there is no solution, where the
/// search ended with [`End::All`]. After another end it is the best solution of those that were
/// found.
///
/// Each solution that is found is better than the one before it, and takes a node. Returns
/// [`End::Solutions`] only if as many are found as `limits.solutions` allows; the point is the last of
/// them. If a limit is 0, no point is given.
///
/// The caller must ensure that each constraint has three different variables. Check with
/// [`Constraint::distinct`], or [`all_distinct`] for a list.
///
/// Costs a copy of the domains and the constraints, a count of those that name each variable, and
/// at most 64 searches, which share the nodes. Each search looks for one solution among the lower
/// half of the numbers that the variable can still have; then these are cut to what is below it, or
/// to the upper half if there is none. Memory is that of two solutions, of the domains that one
/// branch replaces, and of the cuts of the branch.
///
/// Returns [`End::Nodes`] only if `limits.nodes` is at most `2 p * (c / 500 + 1)`, with `p` and `c`
/// as for [`solutions`].
///
/// # Errors
///
/// [`SearchFault::Variable`] for an unknown index, before anything else: the first one of the
/// constraints, or else `variable`. [`SearchFault::Memory`] if allocation fails.
///
/// ```
/// use intervallum::proved::examples::*;
///
/// fn main() -> Result<(), std::boxed::Box<dyn std::error::Error>> {
///     let alloc = Global;
///     // x + y = z, for x and y from 0 to 2 and z 3 or 4: the least y is 1, in 2 + 1 = 3
///     let low = IntervalSet::new(alloc, 0, 2)?;
///     let domains = Vec::from_array(alloc, [ low.try_clone()?, low, IntervalSet::new(alloc, 3, 4)?])?;
///     let constraints = [Constraint { x: 0, y: 1, z: 2 }];
///     let limits = Limits { solutions: 100, nodes: 100_000 };
///     let best = least(alloc, &domains, &constraints, 1, limits)?;
///     assert_eq!(best.end, End::All);
///     assert!(best.point.is_some_and(|point| point.as_slice() == [2, 1, 3].as_slice()));
///     Ok(())
/// }
/// ```
///
/// # Proved
///
/// The fault names the first index of the constraints, in list order, without a domain, or else `variable` if it has none, exactly when there is one. On success, the point, if there is one, is a solution: it has a member of each domain, in order, and satisfies each constraint. If the search ended with `All`, no solution gives the variable a smaller number, and without a point there is no solution. There is a point only if both limits are at least 1. If the search ended with `Solutions`, the point is the last of `limits.solutions` solutions, each with a smaller number for the variable than the one before it, or there is none if that is 0, and `limits.nodes` is no less than `limits.solutions`. It ends with `Nodes` only if `limits.nodes` is at most `2 p * (c / 500 + 1)`, for `c` constraints and the product `p` of the sizes of the domains, or 1 if that is 0.
///
/// ```text
/// requires { All AreDistinct constraints.now }
/// ensures unknown { (i : ℕ) → (result ≡ Err (SearchFault.Variable i)) ↔ (first_unknown_or variable (length domains.now) constraints.now ≡ Some i) }
/// ensures sound { IfOk result (λ best. IfSome best.point (λ point. Solves constraints.now domains.now (map B.value point.items))) }
/// ensures best { IfOk result (λ best. best.end ≡ End.All → IfSome best.point (λ point. IsLeastAt variable (Solves constraints.now domains.now) (map B.value point.items))) }
/// ensures none { IfOk result (λ best. best.end ≡ End.All → IfNone best.point ((point : List ℤ) → ¬ (Solves constraints.now domains.now point))) }
/// ensures bounded { IfOk result (λ best. IfSome best.point (λ _. (1 ≤ limits.solutions) × (1 ≤ limits.nodes))) }
/// ensures full { IfOk result (λ best. best.end ≡ End.Solutions → FallsTo variable (Solves constraints.now domains.now) limits.solutions (option_map (λ point. map B.value point.items) best.point)) }
/// ensures visited { IfOk result (λ best. best.end ≡ End.Solutions → limits.solutions ≤ limits.nodes) }
/// ensures enough { IfOk result (λ best. best.end ≡ End.Nodes → limits.nodes < nodes_for_best B.whole constraints.now domains.now) }
/// ```
///
/// Words: [`AreDistinct`](crate::definitions#AreDistinct), [`first_unknown_or`](crate::definitions#first_unknown_or), [`Solves`](crate::definitions#Solves), [`IsLeastAt`](crate::definitions#IsLeastAt), [`FallsTo`](crate::definitions#FallsTo), [`nodes_for_best`](crate::definitions#nodes_for_best).
#[cfg_attr(debug_assertions, track_caller)]
pub fn least<B: Width>(
    alloc: Global,
    domains: &[IntervalSet<B>],
    constraints: &[Constraint],
    variable: usize,
    limits: Limits,
) -> Result<Best<B>, SearchFault> {
    debug_assert!({ #[allow(unused_imports)] use crate::proved::ivl_interval::ops::*; all_distinct(constraints) }, "{}", "the condition of `least` is broken: all_distinct(constraints)");
    if let Some(i) = first_unknown_or(variable, domains.len(), constraints) {
        return Err(SearchFault::Variable(i));
    }
    let rules = rules_of(alloc, constraints)?;
    rules::least(alloc, domains, &rules, variable, limits)
}

/// Returns a solution in which a variable has its greatest number, as [`least`] does one with its
/// least: no solution gives it a greater one. Searches greater numbers first, of every variable, and
/// so visits as many nodes as [`least`] does where all numbers have the other sign. Costs as much as
/// that.
///
/// The caller must ensure that each constraint has three different variables. Check with
/// [`Constraint::distinct`], or [`all_distinct`] for a list.
///
/// # Errors
///
/// Those of [`least`].
///
/// ```
/// use intervallum::proved::examples::*;
///
/// fn main() -> Result<(), std::boxed::Box<dyn std::error::Error>> {
///     let alloc = Global;
///     // x + y = z, for x and y from 0 to 2 and z 3 or 4: the greatest z is 4, in 2 + 2 = 4
///     let low = IntervalSet::new(alloc, 0, 2)?;
///     let domains = Vec::from_array(alloc, [ low.try_clone()?, low, IntervalSet::new(alloc, 3, 4)?])?;
///     let constraints = [Constraint { x: 0, y: 1, z: 2 }];
///     let limits = Limits { solutions: 100, nodes: 100_000 };
///     let best = greatest(alloc, &domains, &constraints, 2, limits)?;
///     assert_eq!(best.end, End::All);
///     assert!(best.point.is_some_and(|point| point.as_slice() == [2, 2, 4].as_slice()));
///     Ok(())
/// }
/// ```
///
/// # Proved
///
/// The fault names the first index of the constraints, in list order, without a domain, or else `variable` if it has none, exactly when there is one. On success, the point, if there is one, is a solution: it has a member of each domain, in order, and satisfies each constraint. If the search ended with `All`, no solution gives the variable a greater number, and without a point there is no solution. There is a point only if both limits are at least 1. If the search ended with `Solutions`, the point is the last of `limits.solutions` solutions, each with a greater number for the variable than the one before it, or there is none if that is 0, and `limits.nodes` is no less than `limits.solutions`. It ends with `Nodes` only if `limits.nodes` is at most what `least` says.
///
/// ```text
/// requires { All AreDistinct constraints.now }
/// ensures unknown { (i : ℕ) → (result ≡ Err (SearchFault.Variable i)) ↔ (first_unknown_or variable (length domains.now) constraints.now ≡ Some i) }
/// ensures sound { IfOk result (λ best. IfSome best.point (λ point. Solves constraints.now domains.now (map B.value point.items))) }
/// ensures best { IfOk result (λ best. best.end ≡ End.All → IfSome best.point (λ point. IsGreatestAt variable (Solves constraints.now domains.now) (map B.value point.items))) }
/// ensures none { IfOk result (λ best. best.end ≡ End.All → IfNone best.point ((point : List ℤ) → ¬ (Solves constraints.now domains.now point))) }
/// ensures bounded { IfOk result (λ best. IfSome best.point (λ _. (1 ≤ limits.solutions) × (1 ≤ limits.nodes))) }
/// ensures full { IfOk result (λ best. best.end ≡ End.Solutions → RisesTo variable (Solves constraints.now domains.now) limits.solutions (option_map (λ point. map B.value point.items) best.point)) }
/// ensures visited { IfOk result (λ best. best.end ≡ End.Solutions → limits.solutions ≤ limits.nodes) }
/// ensures enough { IfOk result (λ best. best.end ≡ End.Nodes → limits.nodes < nodes_for_best B.whole constraints.now domains.now) }
/// ```
///
/// Words: [`AreDistinct`](crate::definitions#AreDistinct), [`first_unknown_or`](crate::definitions#first_unknown_or), [`Solves`](crate::definitions#Solves), [`IsGreatestAt`](crate::definitions#IsGreatestAt), [`RisesTo`](crate::definitions#RisesTo), [`nodes_for_best`](crate::definitions#nodes_for_best).
#[cfg_attr(debug_assertions, track_caller)]
pub fn greatest<B: Width>(
    alloc: Global,
    domains: &[IntervalSet<B>],
    constraints: &[Constraint],
    variable: usize,
    limits: Limits,
) -> Result<Best<B>, SearchFault> {
    debug_assert!({ #[allow(unused_imports)] use crate::proved::ivl_interval::ops::*; all_distinct(constraints) }, "{}", "the condition of `greatest` is broken: all_distinct(constraints)");
    if let Some(i) = first_unknown_or(variable, domains.len(), constraints) {
        return Err(SearchFault::Variable(i));
    }
    let rules = rules_of(alloc, constraints)?;
    rules::greatest(alloc, domains, &rules, variable, limits)
}
