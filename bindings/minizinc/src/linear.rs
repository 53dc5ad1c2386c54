//! Sums of multiples of variables: that one is in a set, whether it is, and that it is where a condition holds.

use crate::network::{FURTHEST, Network, Set, divided};
use std::cmp::Reverse;
use std::collections::{BTreeMap, BinaryHeap};

/// A factor and a variable.
pub type Term = (i64, usize);

/// How a sum stands to a number.
#[derive(Clone, Copy, Debug, PartialEq)]
pub enum Relation {
    AtMost,
    Equals,
    Differs,
}

/// Terms with factors other than 0, without a common divisor, of variables that are not fixed, each once; and the set in which
/// their sum is wanted, of numbers that it can have.
struct Reduced {
    terms: Vec<Term>,
    set: Set,
    /// The sum can have no other numbers.
    is_whole: bool,
}

fn greatest_common_divisor(a: u64, b: u64) -> u64 {
    if b == 0 { a } else { greatest_common_divisor(b, a % b) }
}

/// The numbers that stand so to the number.
pub fn set_of(relation: Relation, number: i64) -> Set {
    let mut set = match relation {
        Relation::AtMost => Set::whole().within(..=number),
        Relation::Equals => Set::checked_singleton(number).unwrap_or_default(),
        Relation::Differs => Set::whole(),
    };
    if relation == Relation::Differs {
        set.remove(number);
    }
    set
}

impl Network {
    /// The sum is in the set.
    pub fn within(&mut self, terms: &[Term], set: &Set) -> Result<(), String> {
        let reduced = self.reduced(terms, set)?;
        if reduced.set.is_empty() {
            self.is_impossible = true;
        } else if !reduced.is_whole {
            let (variable, set) = self.as_variable(&reduced)?;
            self.keep(variable, &set);
        }
        Ok(())
    }

    /// b = 1 exactly where the sum is in the set.
    pub fn within_if(&mut self, terms: &[Term], set: &Set, b: usize) -> Result<(), String> {
        let reduced = self.reduced(terms, set)?;
        if reduced.set.is_empty() || reduced.is_whole {
            self.keep(b, &Set::singleton(i64::from(reduced.is_whole)));
            return Ok(());
        }
        let (variable, set) = self.as_variable(&reduced)?;
        self.member(variable, &set, b)
    }

    /// A variable of 0 and 1 that is 1 exactly where the sum is in the set.
    pub fn truth_within(&mut self, terms: &[Term], set: &Set) -> Result<usize, String> {
        let reduced = self.reduced(terms, set)?;
        if reduced.set.is_empty() || reduced.is_whole {
            return self.constant(i64::from(reduced.is_whole));
        }
        let (variable, set) = self.as_variable(&reduced)?;
        self.truth(variable, &set)
    }

    /// The sum is in the set where b = 1.
    pub fn within_where(&mut self, b: usize, terms: &[Term], set: &Set) -> Result<(), String> {
        let reduced = self.reduced(terms, set)?;
        if reduced.is_whole {
            return Ok(());
        }
        if reduced.set.is_empty() {
            self.keep(b, &Set::singleton(0));
            return Ok(());
        }
        let (variable, set) = self.as_variable(&reduced)?;
        self.implied_member(b, variable, &set)
    }

    /// The sum stands so to the number.
    pub fn compare(&mut self, terms: &[Term], relation: Relation, number: i64) -> Result<(), String> {
        let set = set_of(relation, number);
        let reduced = self.reduced(terms, &set)?;
        let has_both_signs =
            reduced.terms.iter().any(|(factor, _)| *factor > 0) && reduced.terms.iter().any(|(factor, _)| *factor < 0);
        if reduced.is_whole || reduced.set.is_empty() || !has_both_signs {
            return self.within(terms, &set);
        }
        // what is wanted of the reduced sum is again such a relation, with this number
        let number = match relation {
            Relation::AtMost => reduced.set.upper(),
            Relation::Equals => reduced.set.lower(),
            Relation::Differs => match self.lone_gap(&reduced) {
                Some(gap) => gap,
                None => return Ok(()),
            },
        };
        let (added, taken) = split(&reduced.terms);
        if relation == Relation::Equals && number == 0 {
            return self.equal_totals(&added, &taken);
        }
        let (added, taken) = (self.total(&added)?, self.total(&taken)?);
        match relation {
            Relation::AtMost => self.at_most(added, taken, -number),
            Relation::Equals => self.shifted(added, taken, -number),
            Relation::Differs => self.differs(added, taken, -number),
        }
    }

    /// Both sums are equal; the last step to the longer one ends at the other.
    fn equal_totals(&mut self, left: &[Term], right: &[Term]) -> Result<(), String> {
        let (longer, other) = if left.len() < right.len() { (right, left) } else { (left, right) };
        let other = self.total(other)?;
        match self.last_two(longer)? {
            (last, None) => self.shifted(last, other, 0),
            (one, Some(two)) => self.sum(one, two, other),
        }
    }

    /// The one number that the set lacks.
    fn lone_gap(&self, reduced: &Reduced) -> Option<i64> {
        let (lower, upper) = self.sum_ends(&reduced.terms).ok()?;
        reduced.set.gaps_within(lower as i64..=upper as i64).first()
    }

    /// The ends of a sum, if none of its parts overflows.
    fn sum_ends(&self, terms: &[Term]) -> Result<(i128, i128), String> {
        let (mut lower, mut upper, mut furthest) = (0, 0, 0);
        for (factor, variable) in terms {
            let (first, last) = self.ends(*variable);
            let ends = [first, last].map(|end| i128::from(end) * i128::from(*factor));
            lower += ends[0].min(ends[1]);
            upper += ends[0].max(ends[1]);
            furthest += ends[0].abs().max(ends[1].abs());
            if furthest > i128::from(FURTHEST) {
                return Err("overflow: a part of the sum may be further than 2^60 from 0".into());
            }
        }
        Ok((lower, upper))
    }

    fn reduced(&self, terms: &[Term], set: &Set) -> Result<Reduced, String> {
        self.sum_ends(terms)?;
        let (mut factors, mut offset): (BTreeMap<usize, i64>, i64) = Default::default();
        for (factor, variable) in terms {
            match self.fixed(*variable) {
                Some(number) => offset += factor * number,
                None => {
                    let factors = factors.entry(*variable).or_default();
                    *factors = factors.checked_add(*factor).ok_or("overflow: the factors of a variable")?;
                }
            }
        }
        let divisor =
            factors.values().fold(0, |divisor, factor| greatest_common_divisor(divisor, factor.unsigned_abs())).max(1);
        let divisor = i64::try_from(divisor).map_err(|_| "overflow: a factor of -2^63")?;
        let terms: Vec<Term> = factors
            .into_iter()
            .filter(|(_, factor)| *factor != 0)
            .map(|(variable, factor)| (factor / divisor, variable))
            .collect();
        // where all factors of a variable cancel out, its ends do not count
        let (lower, upper) = self.sum_ends(&terms)?;
        let ends = [lower, upper].map(|end| end * i128::from(divisor) + i128::from(offset));
        let can_have = set.within(ends[0] as i64..=ends[1] as i64);
        let set = divided(&(&can_have - offset), divisor);
        let is_whole = set == Set::new(lower as i64, upper as i64);
        Ok(Reduced { terms, set, is_whole })
    }

    /// A variable and a set: the sum is in the wanted set exactly where the variable is in this one.
    fn as_variable(&mut self, reduced: &Reduced) -> Result<(usize, Set), String> {
        if let [(factor, variable)] = reduced.terms[..] {
            return Ok((variable, divided(&reduced.set, factor)));
        }
        let (added, taken) = split(&reduced.terms);
        if taken.is_empty() {
            return Ok((self.total(&added)?, reduced.set.clone()));
        }
        if added.is_empty() {
            return Ok((self.total(&taken)?, divided(&reduced.set, -1)));
        }
        let (added, taken) = (self.total(&added)?, self.total(&taken)?);
        // x - y and y - x are one variable
        if added < taken {
            Ok((self.minus(added, taken)?, reduced.set.clone()))
        } else {
            Ok((self.minus(taken, added)?, divided(&reduced.set, -1)))
        }
    }

    /// The variable that is the sum.
    pub fn total(&mut self, terms: &[Term]) -> Result<usize, String> {
        match self.last_two(terms)? {
            (last, None) => Ok(last),
            (one, Some(two)) => self.plus(one, two),
        }
    }

    /// One or two variables whose sum is the sum: those that are narrowest are added first.
    fn last_two(&mut self, terms: &[Term]) -> Result<(usize, Option<usize>), String> {
        let mut left = BinaryHeap::new();
        for (factor, variable) in terms {
            let multiple = self.multiple(*factor, *variable)?;
            left.push(Reverse((self.width_of(multiple), multiple)));
        }
        loop {
            let Some(Reverse((_, one))) = left.pop() else { return Ok((self.constant(0)?, None)) };
            let Some(Reverse((_, two))) = left.pop() else { return Ok((one, None)) };
            if left.is_empty() {
                return Ok((one, Some(two)));
            }
            let sum = self.plus(one, two)?;
            left.push(Reverse((self.width_of(sum), sum)));
        }
    }

    fn width_of(&self, variable: usize) -> i64 {
        let (lower, upper) = self.ends(variable);
        upper - lower
    }
}

/// The terms with a factor above 0, and the others with the opposite one.
fn split(terms: &[Term]) -> (Vec<Term>, Vec<Term>) {
    let added = terms.iter().filter(|(factor, _)| *factor > 0).copied().collect();
    let taken = terms.iter().filter(|(factor, _)| *factor < 0).map(|(factor, variable)| (-factor, *variable)).collect();
    (added, taken)
}
