//! What searches return.
use super::{End, Variable};
use crate::set::conditions::contract;
use alloc::vec::{self, Vec};
use core::ops::{Deref, Index};
use core::slice;

/// A number for each variable of a model. `solution[x]` is that of the variable `x`.
///
/// ```
/// use intervallum::solve::{Limits, Model};
///
/// let mut model = Model::new();
/// let (x, y) = (model.variable(7..=7), model.variable(5..=9));
/// model.equals(x, 1, y);
/// let found = model.solutions(Limits::default());
/// assert_eq!((found[0][x], found[0][y], found[0].numbers()), (7, 8, &[7, 8][..]));
/// ```
#[derive(Clone, Debug, PartialEq, Eq, PartialOrd, Ord, Hash)]
pub struct Solution<T> {
    pub(super) numbers: Vec<T>,
}

impl<T> Solution<T> {
    /// Returns the numbers of all variables, in the order in which these were added.
    ///
    /// ```
    /// # use intervallum::solve::{Limits, Model};
    /// let mut model = Model::new();
    /// let cells = model.variables(2, 3..=3);
    /// assert_eq!(model.solutions(Limits::default())[0].numbers(), [3, 3]);
    /// ```
    #[doc = contract!(tested)]
    #[must_use]
    pub fn numbers(&self) -> &[T] {
        &self.numbers
    }
}

/// Panics if the variable is of another model that has more.
impl<T> Index<Variable> for Solution<T> {
    type Output = T;

    #[track_caller]
    fn index(&self, variable: Variable) -> &T {
        &self.numbers[variable.0]
    }
}

/// The solutions that a search found, a slice of them, and why it ended.
#[derive(Clone, Debug, PartialEq, Eq)]
pub struct Found<T> {
    pub(super) solutions: Vec<Solution<T>>,
    pub(super) end: End,
}

impl<T> Found<T> {
    /// Returns why the search ended: if by [`End::All`], these are all solutions.
    ///
    /// ```
    /// # use intervallum::solve::{End, Limits, Model};
    /// let mut model = Model::new();
    /// _ = model.variable(1..=9);
    /// assert_eq!(model.solutions(Limits::default()).end(), End::All);
    /// ```
    #[doc = contract!(tested)]
    #[must_use]
    pub fn end(&self) -> End {
        self.end
    }
}

impl<T> Deref for Found<T> {
    type Target = [Solution<T>];

    fn deref(&self) -> &[Solution<T>] {
        &self.solutions
    }
}

impl<T> IntoIterator for Found<T> {
    type Item = Solution<T>;

    type IntoIter = vec::IntoIter<Solution<T>>;

    fn into_iter(self) -> vec::IntoIter<Solution<T>> {
        self.solutions.into_iter()
    }
}

impl<'a, T> IntoIterator for &'a Found<T> {
    type Item = &'a Solution<T>;

    type IntoIter = slice::Iter<'a, Solution<T>>;

    fn into_iter(self) -> slice::Iter<'a, Solution<T>> {
        self.solutions.iter()
    }
}

/// The best solution that a search found, if it found one, and why it ended.
#[derive(Clone, Debug, PartialEq, Eq)]
pub struct Best<T> {
    pub(super) solution: Option<Solution<T>>,
    pub(super) end: End,
}

impl<T> Best<T> {
    /// Returns the solution, or `None` if none was found.
    ///
    /// ```
    /// # use intervallum::solve::{Limits, Model};
    /// let mut model = Model::new();
    /// let x = model.variable(3..=9);
    /// assert_eq!(model.minimize(x, Limits::default()).solution().map(|solution| solution[x]), Some(3));
    /// ```
    #[doc = contract!(tested)]
    #[must_use]
    pub fn solution(&self) -> Option<&Solution<T>> {
        self.solution.as_ref()
    }

    /// Returns the solution by value, or `None` if none was found.
    ///
    /// ```
    /// # use intervallum::solve::{Limits, Model};
    /// let mut model = Model::<i32>::new();
    /// let x = model.variable(1..1);
    /// assert_eq!(model.maximize(x, Limits::default()).into_solution(), None);
    /// ```
    #[doc = contract!(tested)]
    #[must_use]
    pub fn into_solution(self) -> Option<Solution<T>> {
        self.solution
    }

    /// Returns why the search ended: if by [`End::All`], no solution is better, and there is none if none was found.
    ///
    /// ```
    /// # use intervallum::solve::{End, Limits, Model};
    /// let mut model = Model::new();
    /// let x = model.variable(3..=9);
    /// assert_eq!(model.minimize(x, Limits::default()).end(), End::All);
    /// ```
    #[doc = contract!(tested)]
    #[must_use]
    pub fn end(&self) -> End {
        self.end
    }
}
