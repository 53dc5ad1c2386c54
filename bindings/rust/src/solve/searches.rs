//! Searches.
use super::{Best, End, Found, Limits, Model, Solution, Variable};
use crate::proved::ivl_search::search::{SearchFault, rules};
use crate::proved::width::Width;
use crate::proved::{AllocError, Global};
use crate::rattle::vec::Vec as RattleVec;
use crate::set::conditions::{contract, memory};

/// Searches. Each takes a copy of the domains, and ends within its limits.
impl<T: Width> Model<T> {
    /// Returns solutions, none of them twice, in no order that is promised: all of them, unless a limit ends the search.
    ///
    /// ```
    /// # use intervallum::solve::{End, Limits, Model};
    /// let mut model = Model::new();
    /// let (x, y) = (model.variable(1..=3), model.variable(1..=3));
    /// model.at_most(x, 1, y);
    /// let found = model.solutions(Limits::default());
    /// let mut pairs: Vec<_> = found.iter().map(|solution| (solution[x], solution[y])).collect();
    /// pairs.sort();
    /// assert_eq!((pairs, found.end()), (vec![(1, 2), (1, 3), (2, 3)], End::All));
    /// ```
    #[doc = contract!(search "solutions")]
    #[must_use]
    pub fn solutions(&self, limits: Limits) -> Found<T> {
        let posed = self.posed();
        let found = made(rules::solutions(Global, &posed.domains, &posed.rules, limits.0));
        let solutions = found.points.into_iter().map(|point| self.solution(point)).collect();
        Found { solutions, end: found.end.into() }
    }

    /// Returns how many solutions there are, or how many were found until a limit ended the search.
    ///
    /// ```
    /// # use intervallum::solve::{End, Limits, Model};
    /// let mut model = Model::new();
    /// let three = model.variables(3, 1..=10);
    /// model.all_different(&three);
    /// assert_eq!(model.count(Limits::default()), (720, End::All));
    /// assert_eq!(model.count(Limits::default().solutions(100)), (100, End::Solutions));
    /// ```
    #[doc = contract!(search "count")]
    #[must_use]
    pub fn count(&self, limits: Limits) -> (usize, End) {
        let posed = self.posed();
        let (count, end) = made(rules::count(Global, &posed.domains, &posed.rules, limits.0));
        (count, end.into())
    }

    /// Returns a solution in which the number of a variable is the least that it has in any. If a limit ends the search, it is the best
    /// that was found.
    ///
    /// ```
    /// # use intervallum::solve::{End, Limits, Model};
    /// let mut model = Model::new();
    /// let (x, y) = (model.variable(1..=9), model.variable(1..=9));
    /// model.at_most(x, 4, y);
    /// let best = model.minimize(y, Limits::default());
    /// assert_eq!(best.solution().map(|solution| (solution[x], solution[y])), Some((1, 5)));
    /// assert_eq!(best.end(), End::All);
    /// ```
    #[doc = contract!(search "least")]
    #[must_use]
    #[track_caller]
    pub fn minimize(&self, variable: Variable, limits: Limits) -> Best<T> {
        let (index, posed) = (self.known("minimize", variable), self.posed());
        let best = made(rules::least(Global, &posed.domains, &posed.rules, index, limits.0));
        Best { solution: best.point.map(|point| self.solution(point)), end: best.end.into() }
    }

    /// Returns a solution in which the number of a variable is the greatest that it has in any. If a limit ends the search, it is the
    /// best that was found.
    ///
    /// ```
    /// # use intervallum::solve::{Limits, Model};
    /// let mut model = Model::new();
    /// let (x, y) = (model.variable(1..=9), model.variable(1..=9));
    /// model.at_most(x, 4, y);
    /// let best = model.maximize(x, Limits::default()).into_solution().unwrap();
    /// assert_eq!((best[x], best[y]), (5, 9));
    /// ```
    #[doc = contract!(search "greatest")]
    #[must_use]
    #[track_caller]
    pub fn maximize(&self, variable: Variable, limits: Limits) -> Best<T> {
        let (index, posed) = (self.known("maximize", variable), self.posed());
        let best = made(rules::greatest(Global, &posed.domains, &posed.rules, index, limits.0));
        Best { solution: best.point.map(|point| self.solution(point)), end: best.end.into() }
    }

    /// The numbers of the variables of the model: those of the search alone come after them.
    fn solution(&self, point: RattleVec<T>) -> Solution<T> {
        let mut numbers = point.into_inner();
        numbers.truncate(self.domains.len());
        Solution { numbers }
    }
}

/// What a search returns, whose rules name variables that are there.
fn made<R>(result: Result<R, SearchFault>) -> R {
    memory(result.map_err(|fault| match fault {
        SearchFault::Variable(index) => unreachable!("a rule of a model names variable {index}"),
        SearchFault::Memory => AllocError,
    }))
}
