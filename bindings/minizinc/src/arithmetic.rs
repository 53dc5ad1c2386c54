//! Greatest and least, absolute values, products, quotients, powers, and elements of arrays.

use crate::linear::{Relation, Term};
use crate::network::{FURTHEST, Network, Set};

/// Up to so many pairs of numbers, a function of two variables is a table.
const MOST_PAIRS: u64 = 1024;

/// Up to so many numbers, a function of a variable is a table where there is another way.
const MOST_IN_TABLE: u64 = 4096;

fn zero() -> Set {
    Set::singleton(0)
}

fn from(lower: i64) -> Set {
    Set::new(lower, FURTHEST)
}

fn to(upper: i64) -> Set {
    Set::new(-FURTHEST, upper)
}

impl Network {
    /// m is the greatest of the variables, or the least one.
    pub fn extreme(&mut self, variables: &[usize], m: usize, is_greatest: bool) -> Result<(), String> {
        let sign = if is_greatest { 1 } else { -1 };
        let bound = |ends: &dyn Fn(&usize) -> i64| variables.iter().map(|x| sign * ends(x)).max();
        let (first, last) = (
            bound(&|x| if is_greatest { self.ends(*x).0 } else { self.ends(*x).1 }),
            bound(&|x| if is_greatest { self.ends(*x).1 } else { self.ends(*x).0 }),
        );
        let (Some(first), Some(last)) = (first, last) else { return Err("an array without elements".into()) };
        self.keep(m, &Set::new((sign * first).min(sign * last), (sign * first).max(sign * last)));
        let mut reached = Vec::with_capacity(variables.len());
        for x in variables {
            let above = [(sign, m), (-sign, *x)];
            self.within(&above, &from(0))?;
            reached.push(self.truth_within(&above, &zero())?);
        }
        self.at_least_one(&reached, &[])
    }

    /// One of the first is 1, or one of the others 0.
    pub fn at_least_one(&mut self, positive: &[usize], negative: &[usize]) -> Result<(), String> {
        self.compare(&clause(positive, negative), Relation::AtMost, negative.len() as i64 - 1)
    }

    /// y = |x|
    pub fn absolute(&mut self, x: usize, y: usize) -> Result<(), String> {
        if self.size(x) <= MOST_IN_TABLE {
            return self.image_by(x, |number| Some(number.abs()), y);
        }
        self.keep(y, &from(0));
        for (set, sign) in [(from(0), -1), (to(-1), 1)] {
            let is_there = self.truth(x, &set)?;
            self.within_where(is_there, &[(sign, x), (1, y)], &zero())?;
        }
        Ok(())
    }

    /// y = f(x), and x has no number at which there is none.
    fn image_by(&mut self, x: usize, f: impl Fn(i64) -> Option<i64>, y: usize) -> Result<(), String> {
        let numbers = self.members(x)?;
        let table: Vec<_> = numbers.into_iter().filter_map(|number| Some((number, f(number)?))).collect();
        self.image(x, &table, y)
    }

    /// z = f(x, y), and x and y have no pair of numbers at which there is none. False if there are too many pairs.
    fn image_of_two(
        &mut self,
        x: usize,
        y: usize,
        f: impl Fn(i64, i64) -> Option<i64>,
        z: usize,
    ) -> Result<bool, String> {
        if x == y && self.size(x) <= MOST_IN_TABLE {
            self.image_by(x, |number| f(number, number), z)?;
            return Ok(true);
        }
        let most = if self.fixed(x).or(self.fixed(y)).is_some() { MOST_IN_TABLE } else { MOST_PAIRS };
        if self.size(x).saturating_mul(self.size(y)) > most {
            return Ok(false);
        }
        let (first, last) = self.ends(y);
        let width = last - first + 1;
        let code = self.total_of(&[(width, x), (1, y)])?;
        let mut table = Vec::new();
        for a in self.members(x)? {
            table.extend(self.domains[y].iter().filter_map(|b| Some((width * a + b, f(a, b)?))));
        }
        self.image(code, &table, z)?;
        Ok(true)
    }

    /// The variable that is the sum, whatever is fixed.
    fn total_of(&mut self, terms: &[Term]) -> Result<usize, String> {
        let ends = terms.iter().map(|(factor, x)| {
            let (first, last) = self.ends(*x);
            let (a, b) = (i128::from(first) * i128::from(*factor), i128::from(last) * i128::from(*factor));
            (a.min(b), a.max(b))
        });
        let (lower, upper) = ends.fold((0, 0), |(lower, upper), (a, b)| (lower + a, upper + b));
        let total = self.between(lower, upper)?;
        let mut terms = terms.to_vec();
        terms.push((-1, total));
        self.compare(&terms, Relation::Equals, 0)?;
        Ok(total)
    }

    /// x * y = z
    pub fn product(&mut self, x: usize, y: usize, z: usize) -> Result<(), String> {
        if let Some(factor) = self.fixed(x) {
            return self.compare(&[(factor, y), (-1, z)], Relation::Equals, 0);
        }
        if let Some(factor) = self.fixed(y) {
            return self.compare(&[(factor, x), (-1, z)], Relation::Equals, 0);
        }
        if self.image_of_two(x, y, |a, b| a.checked_mul(b), z)? {
            return Ok(());
        }
        let furthest = self.furthest(x) * self.furthest(y);
        if let Ok(furthest) = i64::try_from(furthest) {
            self.keep(z, &Set::new(-furthest, furthest));
        }
        if self.size(x) < self.size(y) { self.product_by_bits(y, x, z) } else { self.product_by_bits(x, y, z) }
    }

    /// x * y = z, by the binary digits of y, above its least number.
    pub fn product_by_bits(&mut self, x: usize, y: usize, z: usize) -> Result<(), String> {
        let (first, last) = self.ends(y);
        let (lower, upper) = self.ends(x);
        let mut number: Vec<Term> = vec![(1, y)];
        let mut product: Vec<Term> = vec![(1, z), (-first, x)];
        for power in 0..i64::BITS - (last - first).leading_zeros() {
            let bit = self.variable(Set::new(0, 1))?;
            let part = self.variable(Set::new(lower.min(0), upper.max(0)))?;
            let is_unset = self.truth(bit, &zero())?;
            self.within_where(bit, &[(1, x), (-1, part)], &zero())?;
            self.within_where(is_unset, &[(1, part)], &zero())?;
            number.push((-(1 << power), bit));
            product.push((-(1 << power), part));
        }
        self.compare(&number, Relation::Equals, first)?;
        self.compare(&product, Relation::Equals, 0)
    }

    /// The quotient of x by y, rounded towards 0.
    pub fn quotient(&mut self, x: usize, y: usize, quotient: usize) -> Result<(), String> {
        if self.image_of_two(x, y, i64::checked_div, quotient)? {
            return Ok(());
        }
        let furthest = self.furthest(x);
        let rest = self.between(-furthest, furthest)?;
        self.divided_by(x, y, quotient, rest)
    }

    /// What is left of x by y, of the sign of x.
    pub fn remainder(&mut self, x: usize, y: usize, rest: usize) -> Result<(), String> {
        if self.image_of_two(x, y, i64::checked_rem, rest)? {
            return Ok(());
        }
        let furthest = self.furthest(x);
        let quotient = self.between(-furthest, furthest)?;
        self.divided_by(x, y, quotient, rest)
    }

    fn furthest(&self, x: usize) -> i128 {
        let (lower, upper) = self.ends(x);
        i128::from(lower.abs().max(upper.abs()))
    }

    /// x = y * quotient + rest, |rest| < |y|, and the rest has the sign of x.
    pub fn divided_by(&mut self, x: usize, y: usize, quotient: usize, rest: usize) -> Result<(), String> {
        let furthest = self.furthest(x) as i64;
        for variable in [quotient, rest] {
            self.keep(variable, &Set::new(-furthest, furthest));
        }
        self.keep(y, &to(-1).union(&from(1)));
        for (there, sign) in [(from(1), from(1)), (to(-1), to(-1))] {
            let is_there = self.truth(rest, &there)?;
            self.implied_member(is_there, x, &sign)?;
        }
        if let Some(divisor) = self.fixed(y) {
            self.keep(rest, &Set::new(1 - divisor.abs(), divisor.abs() - 1));
            return self.compare(&[(divisor, quotient), (1, rest), (-1, x)], Relation::Equals, 0);
        }
        let (of_rest, of_y) = (self.between(0, i128::from(furthest))?, self.between(0, self.furthest(y))?);
        self.absolute(rest, of_rest)?;
        self.absolute(y, of_y)?;
        self.compare(&[(1, of_rest), (-1, of_y)], Relation::AtMost, -1)?;
        let product = self.between(-i128::from(furthest), i128::from(furthest))?;
        self.product(y, quotient, product)?;
        self.compare(&[(1, product), (1, rest), (-1, x)], Relation::Equals, 0)
    }

    /// x to the power y is z.
    pub fn power(&mut self, x: usize, y: usize, z: usize) -> Result<(), String> {
        if self.image_of_two(x, y, power_of, z)? {
            return Ok(());
        }
        let exponent = self.fixed(y).filter(|exponent| (2..=62).contains(exponent));
        let Some(exponent) = exponent else { return Err("a power of domains of so many numbers".into()) };
        let (mut power, mut furthest) = (x, self.furthest(x));
        for count in 2..=exponent {
            furthest = furthest.saturating_mul(self.furthest(x));
            let next = if count == exponent { z } else { self.between(-furthest, furthest)? };
            self.product(power, x, next)?;
            power = next;
        }
        Ok(())
    }

    /// The element of the array at the index, from 1, is y.
    pub fn element(&mut self, index: usize, array: &[usize], y: usize) -> Result<(), String> {
        let length = array.len() as i64;
        self.keep(index, &if length == 0 { Set::empty() } else { Set::new(1, length) });
        if self.is_impossible {
            return Ok(());
        }
        let places = self.members(index)?;
        let of = |place: i64| array[place as usize - 1];
        if places.iter().all(|place| self.fixed(of(*place)).is_some()) {
            let table: Vec<_> = places.iter().filter_map(|place| Some((*place, self.fixed(of(*place))?))).collect();
            return self.image(index, &table, y);
        }
        let all: Vec<&Set> = places.iter().map(|place| &self.domains[of(*place)]).collect();
        self.keep(y, &Set::union_of(all));
        for place in places {
            let is_there = self.truth(index, &Set::singleton(place))?;
            self.within_where(is_there, &[(1, of(place)), (-1, y)], &zero())?;
        }
        Ok(())
    }
}

/// What stands at most one less than the second are many where a clause holds.
pub fn clause(positive: &[usize], negative: &[usize]) -> Vec<Term> {
    negative.iter().map(|x| (1, *x)).chain(positive.iter().map(|x| (-1, *x))).collect()
}

/// A power, rounded towards 0; none if it is beyond 64 bits, or of 0 by a negative exponent.
fn power_of(base: i64, exponent: i64) -> Option<i64> {
    match (base, exponent) {
        (0, ..=-1) => None,
        (1, _) => Some(1),
        (-1, _) => Some(if exponent % 2 == 0 { 1 } else { -1 }),
        (_, ..=-1) => Some(0),
        (0, 1..) => Some(0),
        _ => base.checked_pow(u32::try_from(exponent).ok()?),
    }
}
