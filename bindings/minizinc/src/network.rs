//! Domains and rules for the proved search, and the two forms by which all is said with them: a variable that is a function of
//! another, and a variable that says whether another is in a set.
//!
//! Each variable that is added here is a function of those that it is made of, so that a point of the model is one point of
//! the network.

use intervallum::IntervalSet;
use intervallum::proved::ivl_rules::rules::Rule;
use intervallum::proved::ivl_store::store::Constraint;
use std::collections::{HashMap, HashSet};

pub type Set = IntervalSet<i64>;

/// No number of a domain is further from 0, so that sums and differences of two, and of one and a shift, are in 64 bits.
pub const FURTHEST: i64 = 1 << 60;

/// How many rules and how many variables a network has at most. It is the bound on memory before the search.
const MOST: usize = 10_000_000;

/// How many members a domain has at most where a variable or a rule is made for each, or a set with a run for each.
pub const MOST_MEMBERS: u64 = 10_000;

/// Up to so many members, sets with a run for each are narrowed faster than by further rules.
const FEW_MEMBERS: u64 = 64;

#[derive(Default)]
pub struct Network {
    pub domains: Vec<Set>,
    pub rules: Vec<Rule>,
    /// Some domain would be empty.
    pub is_impossible: bool,
    constants: HashMap<i64, usize>,
    sums: HashMap<(usize, usize), usize>,
    differences: HashMap<(usize, usize), usize>,
    multiples: HashMap<(i64, usize), usize>,
    keys: HashMap<usize, (i64, usize)>,
    truths: HashMap<(usize, Set), usize>,
}

/// The numbers of which the multiple by a factor, which is not 0, is in the set.
pub fn divided(set: &Set, factor: i64) -> Set {
    let quotients = |lower: i64, upper: i64| {
        let (first, last) = if factor > 0 { (lower, upper) } else { (upper, lower) };
        let (first, last) = (-floor(-i128::from(first), factor), floor(i128::from(last), factor));
        (first <= last).then_some(first as i64..=last as i64)
    };
    set.runs().filter_map(|run| quotients(*run.start(), *run.end())).collect()
}

/// The greatest whole number that is not above the quotient.
fn floor(number: i128, divisor: i64) -> i128 {
    let divisor = i128::from(divisor);
    let below = number % divisor != 0 && (number < 0) != (divisor < 0);
    number / divisor - i128::from(below)
}

impl Network {
    /// A variable of this domain. Where it is empty, the network is impossible.
    pub fn variable(&mut self, domain: Set) -> Result<usize, String> {
        let domain = if domain.is_empty() {
            self.is_impossible = true;
            Set::singleton(0)
        } else {
            domain
        };
        if domain.lower() < -FURTHEST || domain.upper() > FURTHEST {
            return Err(format!("overflow: {} or {} is further than 2^60 from 0", domain.lower(), domain.upper()));
        }
        if self.domains.len() == MOST {
            return Err(format!("it would take more than {MOST} variables"));
        }
        self.domains.push(domain);
        Ok(self.domains.len() - 1)
    }

    pub fn between(&mut self, lower: i128, upper: i128) -> Result<usize, String> {
        let furthest = i128::from(FURTHEST);
        if lower < -furthest || upper > furthest {
            return Err(format!("overflow: {lower} or {upper} is further than 2^60 from 0"));
        }
        self.variable(if lower <= upper { Set::new(lower as i64, upper as i64) } else { Set::empty() })
    }

    pub fn constant(&mut self, number: i64) -> Result<usize, String> {
        if let Some(known) = self.constants.get(&number) {
            return Ok(*known);
        }
        let variable = self.variable(Set::checked_singleton(number).ok_or("overflow: -2^63")?)?;
        self.constants.insert(number, variable);
        Ok(variable)
    }

    /// Leaves a variable the members of the set. A domain is never empty: where it would be, the network is impossible.
    pub fn keep(&mut self, variable: usize, set: &Set) {
        let rest = self.domains[variable].intersection(set);
        if rest.is_empty() {
            self.is_impossible = true;
        } else {
            self.domains[variable] = rest;
        }
    }

    pub fn ends(&self, variable: usize) -> (i64, i64) {
        let domain = &self.domains[variable];
        (domain.lower(), domain.upper())
    }

    pub fn size(&self, variable: usize) -> u64 {
        self.domains[variable].size()
    }

    /// The number of a variable that has only one.
    pub fn fixed(&self, variable: usize) -> Option<i64> {
        let domain = &self.domains[variable];
        domain.is_singleton().then(|| domain.lower())
    }

    fn width(&self, variable: usize) -> i128 {
        let (lower, upper) = self.ends(variable);
        i128::from(upper) - i128::from(lower)
    }

    pub fn members(&self, variable: usize) -> Result<Vec<i64>, String> {
        let size = self.size(variable);
        if size > MOST_MEMBERS {
            return Err(format!("a domain of {size} numbers, where each is looked at: {MOST_MEMBERS} are the most"));
        }
        Ok(self.domains[variable].iter().collect())
    }

    fn add(&mut self, rule: Rule) -> Result<(), String> {
        debug_assert!(rule.is_over_different(), "{rule:?}");
        if self.rules.len() == MOST {
            return Err(format!("it would take more than {MOST} rules"));
        }
        self.rules.push(rule);
        Ok(())
    }

    /// A variable that is equal to another, for a rule that would name that twice.
    fn copy(&mut self, x: usize) -> Result<usize, String> {
        let copy = self.variable(self.domains[x].clone())?;
        self.add(Rule::Shifted { x, y: copy, by: 0 })?;
        Ok(copy)
    }

    /// x + y = z
    pub fn sum(&mut self, x: usize, y: usize, z: usize) -> Result<(), String> {
        let y = if y == x { self.copy(y)? } else { y };
        let z = if z == x || z == y { self.copy(z)? } else { z };
        self.add(Rule::Sum(Constraint { x, y, z }))
    }

    /// x + by = y
    pub fn shifted(&mut self, x: usize, y: usize, by: i64) -> Result<(), String> {
        if x == y {
            self.is_impossible |= by != 0;
            return Ok(());
        }
        self.add(Rule::Shifted { x, y, by })
    }

    /// x + by <= y
    pub fn at_most(&mut self, x: usize, y: usize, by: i64) -> Result<(), String> {
        if x == y {
            self.is_impossible |= by > 0;
            return Ok(());
        }
        self.add(Rule::AtMost { x, y, by })
    }

    /// x + by != y
    pub fn differs(&mut self, x: usize, y: usize, by: i64) -> Result<(), String> {
        if x == y {
            self.is_impossible |= by == 0;
            return Ok(());
        }
        self.add(Rule::Differs { x, y, by })
    }

    /// The variable x + y.
    pub fn plus(&mut self, x: usize, y: usize) -> Result<usize, String> {
        if x == y {
            return self.multiple(2, x);
        }
        let pair = (x.min(y), x.max(y));
        if let Some(known) = self.sums.get(&pair) {
            return Ok(*known);
        }
        let ((a, b), (c, d)) = (self.ends(x), self.ends(y));
        let z = self.between(i128::from(a) + i128::from(c), i128::from(b) + i128::from(d))?;
        self.sum(pair.0, pair.1, z)?;
        self.sums.insert(pair, z);
        Ok(z)
    }

    /// The variable x - y.
    pub fn minus(&mut self, x: usize, y: usize) -> Result<usize, String> {
        if x == y {
            return self.constant(0);
        }
        if let Some(known) = self.differences.get(&(x, y)) {
            return Ok(*known);
        }
        let ((a, b), (c, d)) = (self.ends(x), self.ends(y));
        let z = self.between(i128::from(a) - i128::from(d), i128::from(b) - i128::from(c))?;
        self.sum(y, z, x)?;
        self.differences.insert((x, y), z);
        Ok(z)
    }

    /// The variable factor * x, for a factor that is not 0.
    pub fn multiple(&mut self, factor: i64, x: usize) -> Result<usize, String> {
        if factor == 1 {
            return Ok(x);
        }
        if let Some(known) = self.multiples.get(&(factor, x)) {
            return Ok(*known);
        }
        let (lower, upper) = self.ends(x);
        let ends = [lower, upper].map(|end| i128::from(end) * i128::from(factor));
        if ends.iter().any(|end| end.abs() > i128::from(FURTHEST)) {
            return Err(format!(
                "overflow: {factor} times a number from {lower} to {upper} is further than 2^60 from 0"
            ));
        }
        let multiple = self.new_multiple(factor, x)?;
        self.multiples.insert((factor, x), multiple);
        Ok(multiple)
    }

    fn new_multiple(&mut self, factor: i64, x: usize) -> Result<usize, String> {
        if self.size(x) <= FEW_MEMBERS {
            let table: Vec<_> = self.domains[x].iter().map(|number| (number, number * factor)).collect();
            let multiple = self.variable(table.iter().map(|(_, number)| *number).collect())?;
            self.image(x, &table, multiple)?;
            return Ok(multiple);
        }
        if factor < 0 {
            let x = self.multiple(-factor, x)?;
            let zero = self.constant(0)?;
            return self.minus(zero, x);
        }
        let half = self.multiple(factor / 2, x)?;
        let copy = self.copy(half)?;
        let twice = self.plus(half, copy)?;
        if factor % 2 == 1 { self.plus(twice, x) } else { Ok(twice) }
    }

    /// y = f(x), for a function that is given by a pair for each member of x, or for those that x may have.
    pub fn image(&mut self, x: usize, table: &[(i64, i64)], y: usize) -> Result<(), String> {
        if x == y {
            self.keep(x, &table.iter().filter(|(number, image)| number == image).map(|(number, _)| *number).collect());
            return Ok(());
        }
        let can = |network: &Network, pair: &&(i64, i64)| {
            network.domains[x].contains(pair.0) && network.domains[y].contains(pair.1)
        };
        let table: Vec<(i64, i64)> = table.iter().filter(|pair| can(self, pair)).copied().collect();
        self.keep(x, &table.iter().map(|(number, _)| *number).collect());
        self.keep(y, &table.iter().map(|(_, image)| *image).collect());
        if self.is_impossible || self.fixed(x).is_some() || self.fixed(y).is_some() {
            return Ok(());
        }
        let by = table[0].1 - table[0].0;
        if table.iter().all(|(number, image)| image - number == by) {
            return self.shifted(x, y, by);
        }
        if let Some(rest) = self.lone_rest(&table) {
            return self.sum(x, rest, y);
        }
        let (spread, key) = self.key(x, self.width(y))?;
        let rest = self.variable(table.iter().map(|(number, image)| spread * number - image).collect())?;
        self.sum(y, rest, key)
    }

    /// The variable y - x, for a table so small that it can be seen whether x + rest = y holds at no other numbers than the table's.
    fn lone_rest(&mut self, table: &[(i64, i64)]) -> Option<usize> {
        if table.len() as u64 > FEW_MEMBERS {
            return None;
        }
        let images: HashSet<i64> = table.iter().map(|(_, image)| *image).collect();
        let rests: HashSet<i64> = table.iter().map(|(number, image)| image - number).collect();
        let is_exact = |(number, image): &(i64, i64)| {
            rests.iter().all(|rest| number + rest == *image || !images.contains(&(number + rest)))
        };
        if !table.iter().all(is_exact) {
            return None;
        }
        self.variable(rests.into_iter().collect()).ok()
    }

    /// A variable that is a multiple of x, by a factor that is more than the spread and than x is wide: so a sum of one number
    /// of so narrow a domain and another number is this multiple of one number at most.
    fn key(&mut self, x: usize, spread: i128) -> Result<(i64, usize), String> {
        if let Some((factor, key)) = self.keys.get(&x) {
            if i128::from(*factor) > spread {
                return Ok((*factor, *key));
            }
        }
        let (lower, upper) = self.ends(x);
        let factor = (spread.max(self.width(x)) + 1).max(2) as u128;
        let factor = factor.next_power_of_two() as i128;
        let furthest = i128::from(lower).abs().max(i128::from(upper).abs());
        if factor.checked_mul(furthest).is_none_or(|product| product > i128::from(FURTHEST)) {
            return Err("overflow: a table of numbers that are too far apart".into());
        }
        let factor = factor as i64;
        let numbers = self.members(x)?;
        let key = self.variable(numbers.iter().map(|number| factor * number).collect())?;
        let rest = self.variable(numbers.iter().map(|number| (factor - 1) * number).collect())?;
        self.sum(x, rest, key)?;
        self.keys.insert(x, (factor, key));
        Ok((factor, key))
    }

    /// A variable of 0 and 1 that is 1 exactly where x is in the set.
    pub fn truth(&mut self, x: usize, set: &Set) -> Result<usize, String> {
        let inside = self.domains[x].intersection(set);
        if inside.is_empty() {
            return self.constant(0);
        }
        if inside == self.domains[x] {
            return self.constant(1);
        }
        if self.ends(x) == (0, 1) && inside.contains(1) {
            return Ok(x);
        }
        if let Some(known) = self.truths.get(&(x, inside.clone())) {
            return Ok(*known);
        }
        let truth = self.variable(Set::new(0, 1))?;
        self.member(x, &inside, truth)?;
        Ok(truth)
    }

    /// b = 1 exactly where x is in the set, for a variable b of 0 and 1.
    pub fn member(&mut self, x: usize, set: &Set, b: usize) -> Result<(), String> {
        let (inside, outside) = (self.domains[x].intersection(set), self.domains[x].difference(set));
        match self.fixed(b) {
            Some(1) => self.keep(x, &inside),
            Some(_) => self.keep(x, &outside),
            None if inside.is_empty() => self.keep(b, &Set::singleton(0)),
            None if outside.is_empty() => self.keep(b, &Set::singleton(1)),
            None => return self.new_member(x, inside, outside, b),
        }
        Ok(())
    }

    fn new_member(&mut self, x: usize, inside: Set, outside: Set, b: usize) -> Result<(), String> {
        if let Some(known) = self.truths.get(&(x, inside.clone())) {
            return self.shifted(*known, b, 0);
        }
        if self.ends(x) == (0, 1) {
            if inside.contains(1) {
                return self.shifted(x, b, 0);
            }
            let one = self.constant(1)?;
            self.sum(x, b, one)?;
        } else {
            let (lifted, by) = self.lifted(x, b)?;
            self.keep(lifted, &outside.union(&(&inside + by)));
        }
        self.truths.insert((x, inside), b);
        Ok(())
    }

    /// x is in the set where b = 1.
    pub fn implied_member(&mut self, b: usize, x: usize, set: &Set) -> Result<(), String> {
        let inside = self.domains[x].intersection(set);
        if inside == self.domains[x] || self.fixed(b) == Some(0) {
            return Ok(());
        }
        if self.fixed(b) == Some(1) {
            self.keep(x, set);
            return Ok(());
        }
        if inside.is_empty() {
            self.keep(b, &Set::singleton(0));
            return Ok(());
        }
        let (lifted, by) = self.lifted(x, b)?;
        let domain = self.domains[x].clone();
        self.keep(lifted, &domain.union(&(&inside + by)));
        Ok(())
    }

    /// A variable that is x where b = 0, and x and some number, which is more than x is wide, where b = 1.
    fn lifted(&mut self, x: usize, b: usize) -> Result<(usize, i64), String> {
        let by = self.width(x) + 1;
        let (lower, upper) = self.ends(x);
        if i128::from(upper) + by > i128::from(FURTHEST) {
            return Err(format!("overflow: a condition on a number from {lower} to {upper}"));
        }
        let by = by as i64;
        let step = self.multiple(by, b)?;
        let lifted = self.between(i128::from(lower), i128::from(upper) + i128::from(by))?;
        self.sum(x, step, lifted)?;
        Ok((lifted, by))
    }
}
