//! The rules of a model, and what a search is given for them.
use super::{Model, Variable};
use crate::IntervalSet;
use crate::proved::IntervalSet as ProvedIntervalSet;
use crate::proved::ivl_rules::rules::Rule;
use crate::proved::ivl_store::store::Constraint;
use crate::proved::width::Width;
use crate::set::Piece;
use crate::set::conditions::{broken, contract, within_range};
use crate::set::pieces::Numbers;
use alloc::borrow::Cow;
use alloc::vec::Vec;

/// Variables whose numbers add up to that of another one.
#[derive(Clone, Debug)]
pub(super) struct Sum {
    terms: Vec<usize>,
    total: usize,
}

/// Two tasks of which one begins when the other is over, or later: where each begins, and how long it is.
#[derive(Clone, Copy, Debug)]
pub(super) struct Apart {
    x: usize,
    x_length: i128,
    y: usize,
    y_length: i128,
}

const DIFFERENT: &str = "the variables of a rule must be different";

/// Rules between variables.
impl<T: Width> Model<T> {
    /// Requires `x + by <= y`.
    ///
    /// ```
    /// # use intervallum::solve::{Limits, Model};
    /// let mut model = Model::new();
    /// let (x, y) = (model.variable(0..=9), model.variable(0..=9));
    /// model.at_most(x, 8, y);
    /// assert_eq!(model.count(Limits::default()).0, 3);
    /// ```
    #[doc = contract!(rule AtMost)]
    #[track_caller]
    pub fn at_most(&mut self, x: Variable, by: i64, y: Variable) {
        let [x, y] = self.different("at_most", [x, y]);
        self.rules.push(Rule::AtMost { x, y, by });
    }

    /// Requires `x + by == y`.
    ///
    /// ```
    /// # use intervallum::solve::{Limits, Model};
    /// let mut model = Model::new();
    /// let (x, y) = (model.variable(0..=9), model.variable(0..=9));
    /// model.equals(x, 7, y);
    /// assert_eq!(model.count(Limits::default()).0, 3);
    /// ```
    #[doc = contract!(rule Shifted)]
    #[track_caller]
    pub fn equals(&mut self, x: Variable, by: i64, y: Variable) {
        let [x, y] = self.different("equals", [x, y]);
        self.rules.push(Rule::Shifted { x, y, by });
    }

    /// Requires `x + by != y`.
    ///
    /// ```
    /// # use intervallum::solve::{Limits, Model};
    /// let mut model = Model::new();
    /// let (x, y) = (model.variable(0..=9), model.variable(0..=9));
    /// model.differs(x, 7, y);
    /// assert_eq!(model.count(Limits::default()).0, 97);
    /// ```
    #[doc = contract!(rule Differs)]
    #[track_caller]
    pub fn differs(&mut self, x: Variable, by: i64, y: Variable) {
        let [x, y] = self.different("differs", [x, y]);
        self.rules.push(Rule::Differs { x, y, by });
    }

    /// Requires that no two of the variables have the same number. Makes a rule of each two.
    ///
    /// ```
    /// # use intervallum::solve::{Limits, Model};
    /// let mut model = Model::new();
    /// let three = model.variables(3, 0..=3);
    /// model.all_different(&three);
    /// assert_eq!(model.count(Limits::default()).0, 4 * 3 * 2);
    /// ```
    #[doc = contract!(rule Differs)]
    #[track_caller]
    pub fn all_different(&mut self, variables: &[Variable]) {
        for (i, x) in variables.iter().enumerate() {
            for y in &variables[i + 1..] {
                let [x, y] = self.different("all_different", [*x, *y]);
                self.rules.push(Rule::Differs { x, y, by: 0 });
            }
        }
    }

    /// Requires that numbers of variables add up to that of another one. Where there are more than two, a search has variables of its own
    /// for the sums of the first of them: these must be within the limits, unless no number is below 0, or none above. Of no variables,
    /// the sum is 0.
    ///
    /// ```
    /// # use intervallum::solve::{Limits, Model};
    /// let mut coins = Model::new();
    /// let [ones, twos, fives] = [1, 2, 5].map(|cents| coins.variable((0..=10).step_by(cents).collect::<intervallum::IntervalSet<_>>()));
    /// let ten = coins.variable(10);
    /// coins.sum(&[ones, twos, fives], ten);
    /// assert_eq!(coins.count(Limits::default()).0, 10);
    /// ```
    #[doc = contract!(rule Sum)]
    #[track_caller]
    pub fn sum(&mut self, variables: &[Variable], total: Variable) {
        let is_again = |(i, term): (usize, &Variable)| *term == total || variables[..i].contains(term);
        if variables.iter().enumerate().any(is_again) {
            broken("Model", format_args!("sum(.., {total:?})"), DIFFERENT);
        }
        let mut terms = Vec::with_capacity(variables.len());
        for variable in variables {
            terms.push(self.known("sum", *variable));
        }
        let sum = Sum { total: self.known("sum", total), terms };
        if self.partial_sums(&sum.terms).is_none() {
            broken("Model", format_args!("sum(.., {total:?})"), within_range::<T>("the sums"));
        }
        match sum.terms[..] {
            [] => self.restrict(total, T::zero()),
            [x] => self.rules.push(Rule::Shifted { x, y: sum.total, by: 0 }),
            _ => self.sums.push(sum),
        }
    }

    /// Requires of tasks, which begin at the numbers of variables and have lengths, that no two overlap: of each two, one begins when
    /// the other is over, or later. Also a task of length 0 does not begin within another. A search has a variable of its own for each
    /// two: the difference of their beginnings, which must be within the limits once it is shifted to be no less than the least number.
    ///
    /// ```
    /// # use intervallum::solve::{Limits, Model};
    /// let mut model = Model::new();
    /// let (x, y) = (model.variable(0..=4), model.variable(0..=4));
    /// model.no_overlap(&[(x, 3), (y, 2)]);
    /// // x at 0 or 1 and then y, or y and then x at 2, 3 or 4
    /// assert_eq!(model.count(Limits::default()).0, 2 + 1 + 1 + 2 + 3);
    /// ```
    #[doc = contract!(rule Sum)]
    #[track_caller]
    pub fn no_overlap(&mut self, tasks: &[(Variable, u64)]) {
        for (i, (x, x_length)) in tasks.iter().enumerate() {
            for (y, y_length) in &tasks[i + 1..] {
                let [first, second] = self.different("no_overlap", [*x, *y]);
                let pair = Apart { x: first, x_length: (*x_length).into(), y: second, y_length: (*y_length).into() };
                if self.distance(&pair).is_none() {
                    let condition = within_range::<T>("the differences of the beginnings");
                    broken("Model", format_args!("no_overlap(.. {x:?}, {y:?} ..)"), condition);
                }
                self.apart.push(pair);
            }
        }
    }

    /// Returns the indexes of two variables of a rule.
    #[track_caller]
    fn different(&self, call: &str, [x, y]: [Variable; 2]) -> [usize; 2] {
        if x == y {
            broken("Model", format_args!("{call}(.. {x:?}, {y:?} ..)"), DIFFERENT);
        }
        [self.known(call, x), self.known(call, y)]
    }
}

/// What a search is given: the domains of the variables, then those of its own, and the rules.
pub(super) struct Posed<'a, T: Width> {
    pub domains: Vec<ProvedIntervalSet<T>>,
    pub rules: Cow<'a, [Rule]>,
}

impl<T: Width> Posed<'_, T> {
    fn add(&mut self, domain: IntervalSet<T>) -> usize {
        self.domains.push(domain.into());
        self.domains.len() - 1
    }

    fn add_sum(&mut self, x: usize, y: usize, z: usize) {
        self.rules.to_mut().push(Rule::Sum(Constraint { x, y, z }));
    }
}

impl<T: Width> Model<T> {
    pub(super) fn posed(&self) -> Posed<'_, T> {
        let domains = self.domains.iter().map(|domain| domain.clone().into()).collect();
        let mut posed = Posed { domains, rules: Cow::Borrowed(&self.rules) };
        for sum in &self.sums {
            self.pose_sum(sum, &mut posed);
        }
        for pair in &self.apart {
            self.pose_apart(pair, &mut posed);
        }
        posed
    }

    /// The sum of the first two terms, of this and the third, and so on up to the total.
    fn pose_sum(&self, sum: &Sum, posed: &mut Posed<'_, T>) {
        // a domain that was restricted since then leaves sums within the limits
        let partial = self.partial_sums(&sum.terms).unwrap_or_default();
        let (mut so_far, rest) = (sum.terms[0], &sum.terms[1..]);
        for (term, domain) in rest.iter().zip(partial) {
            let next = posed.add(domain);
            posed.add_sum(so_far, *term, next);
            so_far = next;
        }
        posed.add_sum(so_far, sum.terms[sum.terms.len() - 1], sum.total);
    }

    /// The distance from the first beginning to the second, which is not that of tasks that overlap.
    fn pose_apart(&self, pair: &Apart, posed: &mut Posed<'_, T>) {
        let (distances, shift) = self.distance(pair).unwrap_or_default();
        let distance = posed.add(distances);
        if shift == 0 {
            posed.add_sum(pair.x, distance, pair.y);
            return;
        }
        let moved = posed.add(self.moved(pair.y, shift).unwrap_or_default());
        posed.rules.to_mut().push(Rule::Shifted { x: pair.y, y: moved, by: shift });
        posed.add_sum(pair.x, distance, moved);
    }

    /// The sums of the first two terms, of the first three and so on, but not of all; or `None` if some may be outside the limits. In a
    /// solution they are on the way from 0 to the total, if all terms have the same sign.
    fn partial_sums(&self, terms: &[usize]) -> Option<Vec<IntervalSet<T>>> {
        let Some(ends) = terms.iter().map(|term| self.ends(*term)).collect::<Option<Vec<_>>>() else {
            return Some(terms.iter().skip(2).map(|_| IntervalSet::empty()).collect());
        };
        let (least, most) = (T::min_value().number(), T::max_value().number());
        let (rise, fall) = (ends.iter().all(|(lower, _)| *lower >= 0), ends.iter().all(|(_, upper)| *upper <= 0));
        let mut sums = Vec::new();
        let (mut lower, mut upper) = (0, 0);
        for (i, (low, high)) in ends.iter().enumerate() {
            (lower, upper) = (lower + low, upper + high);
            if i > 0 && i + 1 < ends.len() {
                let fits = (lower >= least || fall) && (upper <= most || rise);
                sums.push(fits.then(|| numbers(lower.max(least), upper.min(most)))?);
            }
        }
        Some(sums)
    }

    /// The distances from the first beginning to the second, and the shift by which they are no less than the least number; or `None` if
    /// they are then outside the limits.
    fn distance(&self, pair: &Apart) -> Option<(IntervalSet<T>, i64)> {
        let Some(((x_least, x_most), (y_least, y_most))) = self.ends(pair.x).zip(self.ends(pair.y)) else {
            return Some((IntervalSet::empty(), 0));
        };
        let (least, most) = (y_least - x_most, y_most - x_least);
        let shift = (T::min_value().number() - least).max(0);
        let limit = T::max_value().number();
        if most + shift > limit || y_most + shift > limit {
            return None;
        }
        let before = numbers(least + shift, (-pair.y_length).min(most) + shift);
        let after = numbers(pair.x_length.max(least) + shift, most + shift);
        Some((before | after, i64::try_from(shift).ok()?))
    }

    /// The numbers of a domain, each greater by so much.
    fn moved(&self, variable: usize, shift: i64) -> Option<IntervalSet<T>> {
        let (least, most) = self.ends(variable)?;
        Some(numbers(least + i128::from(shift), most + i128::from(shift)))
    }

    /// The least and the greatest number of a domain.
    fn ends(&self, variable: usize) -> Option<(i128, i128)> {
        let domain = &self.domains[variable];
        Some((domain.first()?.number(), domain.last()?.number()))
    }
}

/// The set of the numbers from one to another, of those within the limits.
fn numbers<T: Width>(lower: i128, upper: i128) -> IntervalSet<T> {
    IntervalSet::of_intervals(alloc::vec![Piece::<T>::clamped(&Numbers((lower, upper)))])
}
