// Written by bindings/rust/extract from crates/ivl_store_lines/src/solver.rt.
//! The variables by name, their domains, and the rules that hold between them.

#[allow(unused_imports)]
use crate::rattle::prelude::*;
use crate::proved::ivl_store_lines::atomic::{require_atomically, restrict_atomically, settle_atomically};
use crate::proved::ivl_store_lines::different::{each_pair, first_repeated};
use crate::proved::ivl_store_lines::fault::Fault;
use crate::proved::ivl_store_lines::progress::Progress;
use crate::proved::ivl_store_lines::relation::Relation;
use crate::proved::ivl_store_lines::request::Request;
use indexmap::IndexSet;
use crate::proved::intervallum::interval::Interval;
use crate::proved::intervallum::interval_set::{IntervalSet, ToIntervalSet};
use crate::proved::ivl_lines::{next_word, number_from};
use crate::proved::ivl_network::network::Network;
use crate::proved::ivl_rules::rules::Rule;
use crate::proved::ivl_store::store::Constraint;
use crate::rattle::std::alloc::{AllocError, Global};
use crate::rattle::std::collections::hash_map::RandomState;

/// The variables by name, their domains, and the rules that hold between them. A contract sees the
/// three lists.
pub struct Solver {
    alloc: Global,
    // With random keys, so that nobody can choose names that collide.
    names: IndexSet<String, RandomState>,
    network: Network<i64>,
    limit: u64,
    progress: Progress,
}

impl Solver {
    /// Creates a solver without variables, with a limit of a million. Looks names up by hashes with
    /// these keys. Does not allocate.
    pub fn new(alloc: Global, keys: RandomState) -> Solver {
        Solver {
            alloc,
            names: IndexSet::with_hasher(alloc, keys),
            network: Network::new(alloc),
            limit: 1_000_000,
            progress: Progress::Complete,
        }
    }

    /// Returns the allocator.
    pub fn allocator(&self) -> Global {
        self.alloc
    }

    /// Carries out what a line asks for. A fault changes nothing, but that rules which were not settled all may
    /// have to be looked at anew where an allocation fails.
    pub fn carry_out<'a>(&mut self, request: Request<'a>) -> Result<(), Fault<'a>> {
        match request {
            Request::Var(name, pairs) => self.define(name, &pairs),
            Request::Cut(name, pairs) => self.cut(name, &pairs),
            Request::Sum(x, y, z) => self.sum(x, y, z),
            Request::Relate(relation, x, y, by) => self.relate(relation, x, y, by),
            Request::Different(names) => self.different(names),
            Request::Limit(limit) => {
                self.limit = limit;
                Ok(())
            }
            Request::GoOn => {
                self.settle()?;
                Ok(())
            }
            Request::Show(None) | Request::Solve(_) | Request::Count => Ok(()),
            Request::Show(Some(name)) | Request::Least(name) | Request::Greatest(name) => {
                self.known(name)?;
                Ok(())
            }
        }
    }

    /// Returns the names, in the order in which they were defined.
    pub fn names(&self) -> &[String] {
        self.names.as_slice()
    }

    /// Returns the domains, in the order of the names.
    pub fn domains(&self) -> &[IntervalSet<i64>] {
        self.network.domains()
    }

    /// Returns the rules, in the order in which they were first required.
    pub fn rules(&self) -> &[Rule] {
        self.network.rules()
    }

    /// Returns the domain of the variable that has this name.
    ///
    /// # Errors
    ///
    /// `Unknown` if no variable has it.
    pub fn domain_named<'a>(&self, name: &'a str) -> Result<&IntervalSet<i64>, Fault<'a>> {
        let index = self.known(name)?;
        Ok(&self.network.domains()[index])
    }

    /// Returns true exactly when some domain is empty. `O(1)`.
    pub fn has_empty(&self) -> bool {
        self.network.has_empty()
    }

    /// Returns what the narrowings of a line may count for. `O(1)`.
    pub fn limit(&self) -> u64 {
        self.limit
    }

    /// Returns how far the domains are narrowed. `O(1)`.
    pub fn progress(&self) -> Progress {
        self.progress
    }

    /// Adds a variable, whose domain is the union of the pairs.
    fn define<'a>(&mut self, name: &'a str, pairs: &[(i64, i64)]) -> Result<(), Fault<'a>> {
        if self.index_of(name).is_some() {
            return Err(Fault::Defined(name));
        }
        if number_from(name).is_some() {
            return Err(Fault::Numeral(name));
        }
        let domain = set_of(self.alloc, pairs)?;
        self.add(name, domain)?;
        Ok(())
    }

    /// Adds a variable. If allocation fails, nothing changes.
    fn add(&mut self, name: &str, domain: IntervalSet<i64>) -> Result<(), AllocError> {
        let count = self.names.len();
        self.names.insert(String::from_str(self.alloc, name)?)?;
        match self.network.add_variable(domain) {
            Ok(_) => Ok(()),
            Err(error) => {
                self.names.truncate(count);
                Err(error)
            }
        }
    }

    /// Keeps the members of a domain that are in the union of the pairs.
    fn cut<'a>(&mut self, name: &'a str, pairs: &[(i64, i64)]) -> Result<(), Fault<'a>> {
        let variable = self.known(name)?;
        let allowed = set_of(self.alloc, pairs)?;
        self.restrict(variable, &allowed)?;
        Ok(())
    }

    /// Requires that two variables add to a third.
    fn sum<'a>(&mut self, x: &'a str, y: &'a str, z: &'a str) -> Result<(), Fault<'a>> {
        let sum = Constraint {
            x: self.known(x)?,
            y: self.known(y)?,
            z: self.known(z)?,
        };
        if !sum.distinct() {
            return Err(Fault::Repeated(if sum.x == sum.y { x } else { z }));
        }
        self.require(&[Rule::Sum(sum)])?;
        Ok(())
    }

    /// Requires that a variable, shifted by a number, is so related to another.
    fn relate<'a>(
        &mut self,
        relation: Relation,
        x: &'a str,
        y: &'a str,
        by: i64,
    ) -> Result<(), Fault<'a>> {
        let first = self.known(x)?;
        let second = self.known(y)?;
        if first == second {
            return Err(Fault::Repeated(x));
        }
        let rule = rule_of(relation, first, second, by);
        self.require(&[rule])?;
        Ok(())
    }

    /// Requires that no two variables have the same number.
    fn different<'a>(&mut self, names: &'a str) -> Result<(), Fault<'a>> {
        if let Some(name) = self.first_unknown(names) {
            return Err(Fault::Unknown(name));
        }
        if let Some(name) = first_repeated(names) {
            return Err(Fault::Repeated(name));
        }
        let variables = self.known_among(names)?;
        let rules = each_pair(self.alloc, &variables)?;
        self.require(&rules)?;
        Ok(())
    }

    /// The first of the names that no variable has.
    fn first_unknown<'a>(&self, names: &'a str) -> Option<&'a str> {
        let mut rest = names;
        while let Some((name, after)) = next_word(rest) {
            if self.index_of(name).is_none() {
                return Some(name);
            }
            rest = after;
        }
        None
    }

    /// The variables that have these names, in order.
    fn known_among(&self, names: &str) -> Result<Vec<usize>, AllocError> {
        let mut variables = Vec::new(self.alloc);
        let mut rest = names;
        while let Some((name, after)) = next_word(rest) {
            if let Some(variable) = self.index_of(name) {
                variables.push(variable)?;
            }
            rest = after;
        }
        Ok(variables)
    }

    /// Returns the variable of a name.
    ///
    /// # Errors
    ///
    /// `Unknown` if no variable has it.
    pub fn known<'a>(&self, name: &'a str) -> Result<usize, Fault<'a>> {
        self.index_of(name).ok_or(Fault::Unknown(name))
    }

    /// The index of the variable that has this name, and so of its domain.
    fn index_of(&self, name: &str) -> Option<usize> {
        self.names.get_index_of(name)
    }

    /// Cuts a domain, and narrows all. If allocation fails, all is taken back.
    fn restrict(&mut self, variable: usize, allowed: &IntervalSet<i64>) -> Result<(), AllocError> {
        let progress = restrict_atomically(&mut self.network, variable, allowed, self.limit)?;
        self.progress = progress;
        Ok(())
    }

    /// Adds rules, and narrows the domains. If allocation fails, all is taken back.
    fn require(&mut self, rules: &[Rule]) -> Result<(), AllocError> {
        let progress = require_atomically(&mut self.network, rules, self.limit)?;
        self.progress = progress;
        Ok(())
    }

    /// Narrows the domains by the rules, within the limit. If allocation fails, all is
    /// taken back.
    fn settle(&mut self) -> Result<(), AllocError> {
        let progress = settle_atomically(&mut self.network, self.limit)?;
        self.progress = progress;
        Ok(())
    }
}

/// The rule that relates two variables so.
fn rule_of(relation: Relation, x: usize, y: usize, by: i64) -> Rule {
    match relation {
        Relation::Shifted => Rule::Shifted { x, y, by },
        Relation::AtMost => Rule::AtMost { x, y, by },
        Relation::Differs => Rule::Differs { x, y, by },
    }
}

/// The union of the pairs, in none of which the first bound is above the second.
fn set_of<'a>(alloc: Global, pairs: &[(i64, i64)]) -> Result<IntervalSet<i64>, Fault<'a>> {
    if !pairs
        .iter()
        .all(|&(lower, upper)| Interval::in_range(lower, upper))
    {
        return Err(Fault::Range);
    }
    if let Some(pair) = first_crossed(pairs) {
        return Err(Fault::Crossed(pair.0, pair.1));
    }
    Ok(pairs.to_interval_set(alloc)?)
}

/// The first pair whose first bound is above the second.
fn first_crossed(pairs: &[(i64, i64)]) -> Option<(i64, i64)> {
    let mut rest = pairs;
    while let [pair, others @ ..] = rest {
        if pair.0 > pair.1 {
            return Some(*pair);
        }
        rest = others;
    }
    None
}
