//! Models: variables with their domains, and what is asked of them.
use super::rules::{Apart, Sum};
use crate::IntervalSet;
use crate::proved::ivl_rules::rules::Rule;
use crate::proved::width::Width;
use crate::set::Pieces;
use crate::set::conditions::{broken, contract};
use crate::set::making::gathered;
use alloc::vec::Vec;
use core::fmt::{self, Debug};

/// Variables and rules between them, to be solved.
///
/// `T` is a type of numbers as an [`IntervalSet`] has. A variable has one of the numbers of its domain, which is any set. A rule is
/// about the numbers as such: `x + 3 <= y` may hold where `x + 3` is no number of `T`. Calls that add rules need variables of the
/// model, and these must be different; a call whose condition does not hold panics with its name and the condition.
///
/// ```
/// use intervallum::solve::{Limits, Model};
///
/// // 1 to 9 once each, so that every row, column and diagonal of a square adds up to 15
/// let mut square = Model::new();
/// let cells = square.variables(9, 1..=9);
/// square.all_different(&cells);
/// let fifteen = square.variable(15);
/// for line in [[0, 1, 2], [3, 4, 5], [6, 7, 8], [0, 3, 6], [1, 4, 7], [2, 5, 8], [0, 4, 8], [2, 4, 6]] {
///     square.sum(&line.map(|place| cells[place]), fifteen);
/// }
/// let found = square.solutions(Limits::default());
/// assert!(found.len() == 8 && found.iter().all(|solution| solution[cells[4]] == 5));
/// ```
#[derive(Clone)]
pub struct Model<T: Width> {
    pub(super) domains: Vec<IntervalSet<T>>,
    pub(super) rules: Vec<Rule>,
    pub(super) apart: Vec<Apart>,
    pub(super) sums: Vec<Sum>,
}

/// A variable of a [`Model`]: the index of its domain, from 0 in the order in which the variables were added.
#[derive(Clone, Copy, Debug, PartialEq, Eq, PartialOrd, Ord, Hash)]
pub struct Variable(pub(super) usize);

/// Variables and their domains.
impl<T: Width> Model<T> {
    /// Returns a model without variables. Does not allocate.
    ///
    /// ```
    /// # use intervallum::solve::{Limits, Model};
    /// assert_eq!(Model::<u8>::new().count(Limits::default()).0, 1);
    /// ```
    #[doc = contract!(tested)]
    #[must_use]
    pub const fn new() -> Self {
        Self { domains: Vec::new(), rules: Vec::new(), apart: Vec::new(), sums: Vec::new() }
    }

    /// Adds a variable, whose domain is a range, a number or a set. All its numbers must be within the limits.
    ///
    /// ```
    /// # use intervallum::solve::Model;
    /// # use intervallum::IntervalSet;
    /// let mut model = Model::new();
    /// let (x, y) = (model.variable(0..10), model.variable(IntervalSet::from([2, 3, 5, 7])));
    /// assert_eq!((model.domain(x).len(), model.domain(y).len()), (10, 4));
    /// ```
    #[doc = contract!(tested)]
    #[track_caller]
    pub fn variable(&mut self, domain: impl Pieces<T>) -> Variable {
        self.domains.push(IntervalSet::of_intervals(gathered("Model", "variable", [domain])));
        Variable(self.domains.len() - 1)
    }

    /// Adds so many variables with one domain.
    ///
    /// ```
    /// # use intervallum::solve::Model;
    /// let mut model = Model::new();
    /// let cells = model.variables(81, 1..=9);
    /// assert_eq!((cells.len(), model.domain(cells[80]).to_string()), (81, "[1..9]".into()));
    /// ```
    #[doc = contract!(tested)]
    #[track_caller]
    pub fn variables(&mut self, count: usize, domain: impl Pieces<T>) -> Vec<Variable> {
        let domain = IntervalSet::of_intervals(gathered("Model", "variables", [domain]));
        (0..count).map(|_| self.variable(&domain)).collect()
    }

    /// Returns the domain of a variable.
    ///
    /// ```
    /// # use intervallum::solve::Model;
    /// let mut model = Model::new();
    /// let x = model.variable(1..=9);
    /// assert_eq!(model.domain(x).to_string(), "[1..9]");
    /// ```
    #[doc = contract!(tested)]
    #[must_use]
    #[track_caller]
    pub fn domain(&self, variable: Variable) -> &IntervalSet<T> {
        &self.domains[self.known("domain", variable)]
    }

    /// Removes what is not in a range or a set, or is not a number, from the domain of a variable. All numbers must be within the limits.
    ///
    /// ```
    /// # use intervallum::solve::Model;
    /// # use intervallum::IntervalSet;
    /// let mut model = Model::new();
    /// let x = model.variable(1..=9);
    /// model.restrict(x, &IntervalSet::from([3..=5, 20..=30]));
    /// model.restrict(x, 4..);
    /// assert_eq!(model.domain(x).to_string(), "[4..5]");
    /// ```
    #[doc = contract!(by "Intersection" "intersection")]
    #[track_caller]
    pub fn restrict(&mut self, variable: Variable, domain: impl Pieces<T>) {
        let index = self.known("restrict", variable);
        self.domains[index] &= IntervalSet::of_intervals(gathered("Model", "restrict", [domain]));
    }

    /// Returns the index of a variable, which has to be one of the model.
    #[track_caller]
    pub(super) fn known(&self, call: &str, variable: Variable) -> usize {
        if variable.0 >= self.domains.len() {
            broken("Model", format_args!("{call}(.. {variable:?} ..)"), "a variable must be one of the model");
        }
        variable.0
    }
}

/// A model without variables.
impl<T: Width> Default for Model<T> {
    fn default() -> Self {
        Self::new()
    }
}

/// Writes the domains.
impl<T: Width + Debug> Debug for Model<T> {
    fn fmt(&self, f: &mut fmt::Formatter<'_>) -> fmt::Result {
        f.write_str("Model ")?;
        f.debug_map().entries(self.domains.iter().enumerate()).finish()
    }
}
