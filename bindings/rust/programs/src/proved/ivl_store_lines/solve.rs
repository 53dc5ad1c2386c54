// Written by bindings/rust/extract from crates/ivl_store_lines/src/solve.rt.
//! The solutions of the rules over the domains, as a search finds them within the limit of a line.

#[allow(unused_imports)]
use crate::rattle::prelude::*;
use crate::proved::ivl_store_lines::fault::Fault;
use crate::proved::ivl_store_lines::solver::Solver;
use crate::proved::intervallum::interval_set::IntervalSet;
use crate::proved::ivl_rules::rules::Rule;
use crate::proved::ivl_search::search;
use crate::proved::ivl_search::search::{Best, End, Found, Limits, NARROWINGS_PER_NODE, SearchFault};
use crate::rattle::std::alloc::{AllocError, Global};

/// Which number of a variable a search is for.
#[derive(Clone, Copy)]
pub enum Extreme {
    /// Its least one.
    Least,
    /// Its greatest one.
    Greatest,
}

impl Solver {
    /// Returns solutions, `most` of them at most, and how their search ended.
    pub fn solutions(&self, most: u64) -> Result<Found<i64>, AllocError> {
        if self.has_empty() {
            return Ok(Found {
                points: Vec::new(self.allocator()),
                end: End::All,
            });
        }
        let limits = self.limits(most as usize);
        match search::rules::solutions(self.allocator(), self.domains(), self.rules(), limits) {
            Ok(found) => Ok(found),
            Err(_) => Err(AllocError),
        }
    }

    /// Returns how many solutions there are, and how their search ended.
    pub fn count(&self) -> Result<(usize, End), AllocError> {
        if self.has_empty() {
            return Ok((0, End::All));
        }
        let limits = self.limits(usize::MAX);
        match search::rules::count(self.allocator(), self.domains(), self.rules(), limits) {
            Ok(counted) => Ok(counted),
            Err(_) => Err(AllocError),
        }
    }

    /// Returns a solution with the least or greatest number for a variable, and how the search for it
    /// ended. It has fewer nodes than it may find solutions, so it never ends with
    /// [`End::Solutions`].
    ///
    /// # Errors
    ///
    /// `Unknown` if no variable has the name, `Memory` if allocation fails.
    pub fn best<'a>(&self, name: &'a str, extreme: Extreme) -> Result<Best<i64>, Fault<'a>> {
        let variable = self.known(name)?;
        if self.has_empty() {
            return Ok(none());
        }
        let limits = self.limits(usize::MAX);
        let (alloc, domains, rules) = (self.allocator(), self.domains(), self.rules());
        match best_of(alloc, domains, rules, variable, limits, extreme) {
            Ok(best) => Ok(best),
            Err(_) => Err(Fault::Memory),
        }
    }

    /// How long a search may go on.
    fn limits(&self, solutions: usize) -> Limits {
        let nodes = self.limit() / NARROWINGS_PER_NODE;
        Limits { solutions, nodes }
    }
}

/// Searches for the solution with the extreme number.
fn best_of(
    alloc: Global,
    domains: &[IntervalSet<i64>],
    rules: &[Rule],
    variable: usize,
    limits: Limits,
    extreme: Extreme,
) -> Result<Best<i64>, SearchFault> {
    match extreme {
        Extreme::Least => search::rules::least(alloc, domains, rules, variable, limits),
        Extreme::Greatest => search::rules::greatest(alloc, domains, rules, variable, limits),
    }
}

/// That there is no solution.
fn none() -> Best<i64> {
    Best {
        point: None,
        end: End::All,
    }
}
