//! Models behind handles: variables and their domains, rules between them, and searches.
//!
//! Each search is one call of the proved `ivl_search`. A sum of more than two terms is posed by variables of the search for its
//! partial sums, and two tasks that do not overlap by one for the distance of their beginnings; these come after those of the model.
use super::handles::{OUT_OF_MEMORY, Told, out_of_memory};
use super::memory;
use intervallum::proved::ivl_rules::rules::Rule;
use intervallum::proved::ivl_search::search::{Best, End, Found, Limits, SearchFault, rules};
use intervallum::proved::ivl_store::store::Constraint;
use intervallum::proved::prelude::*;
use intervallum::proved::{AllocError, Global};
use intervallum::rattle::vec::Vec;
use std::sync::atomic::{AtomicBool, Ordering};

pub const SUM_OUT_OF_RANGE: i64 = -5;
pub const UNFINISHED: i64 = -8;
pub const STOPPED: i64 = -9;
pub const UNKNOWN_VARIABLE: i64 = -10;
pub const SAME_VARIABLE: i64 = -11;

/// Numbers of variables that add up to that of another one.
struct Sum {
    terms: Vec<usize>,
    total: usize,
}

/// Two tasks of which one begins when the other is over, or later: where each begins, and how long it is.
#[derive(Clone, Copy)]
struct Apart {
    x: usize,
    x_length: i128,
    y: usize,
    y_length: i128,
}

/// A task, as C has it.
#[repr(C)]
#[derive(Clone, Copy)]
pub struct Task {
    variable: i64,
    length: u64,
}

pub struct Solver<B: Width> {
    domains: Vec<IntervalSet<B>>,
    rules: Vec<Rule>,
    sums: Vec<Sum>,
    apart: Vec<Apart>,
    stops: AtomicBool,
}

/// What a search is given.
struct Posed<B: Width> {
    domains: Vec<IntervalSet<B>>,
    rules: Vec<Rule>,
}

/// The solutions that a search found.
pub struct Solutions<B: Width> {
    points: Vec<Vec<B>>,
    width: usize,
    end: End,
    next: usize,
}

// ---- variables

impl<B: Width> Solver<B> {
    pub fn new() -> Self {
        Solver {
            domains: Vec::new(Global),
            rules: Vec::new(Global),
            sums: Vec::new(Global),
            apart: Vec::new(Global),
            stops: AtomicBool::new(false),
        }
    }

    pub fn try_clone(&self) -> Result<Self, i64> {
        let mut made = Solver::new();
        made.domains = copied(&self.domains, 0).map_err(out_of_memory)?;
        made.rules.extend_from_slice(&self.rules).map_err(out_of_memory)?;
        made.apart.extend_from_slice(&self.apart).map_err(out_of_memory)?;
        for sum in &self.sums {
            let terms = Vec::from_slice(Global, &sum.terms).map_err(out_of_memory)?;
            made.sums.push(Sum { terms, total: sum.total }).map_err(out_of_memory)?;
        }
        Ok(made)
    }

    pub fn variable_count(&self) -> u64 {
        self.domains.len() as u64
    }

    pub fn add_run(&mut self, domain: Interval<B>) -> Told {
        self.add(1, &domain.to_interval_set(Global).map_err(out_of_memory)?)
    }

    /// Adds so many variables with one domain, and returns the index of the first.
    pub fn add(&mut self, count: usize, domain: &IntervalSet<B>) -> Told {
        let first = self.domains.len();
        self.domains.reserve(count).map_err(out_of_memory)?;
        for _ in 0..count {
            match domain.try_clone() {
                Ok(copy) => self.domains.push_reserved(copy),
                Err(AllocError) => {
                    self.domains.truncate(first);
                    return Err(OUT_OF_MEMORY);
                }
            }
        }
        i64::try_from(first).map_err(|_| OUT_OF_MEMORY)
    }

    fn known(&self, variable: i64) -> Result<usize, i64> {
        usize::try_from(variable).ok().filter(|index| *index < self.domains.len()).ok_or(UNKNOWN_VARIABLE)
    }

    fn pair(&self, x: i64, y: i64) -> Result<[usize; 2], i64> {
        let pair = [self.known(x)?, self.known(y)?];
        if x == y { Err(SAME_VARIABLE) } else { Ok(pair) }
    }

    pub fn domain(&self, x: i64) -> Result<&IntervalSet<B>, i64> {
        Ok(&self.domains[self.known(x)?])
    }

    pub fn restrict_run(&mut self, x: i64, allowed: Interval<B>) -> Result<(), i64> {
        self.restrict(x, &allowed.to_interval_set(Global).map_err(out_of_memory)?)
    }

    pub fn restrict(&mut self, x: i64, allowed: &IntervalSet<B>) -> Result<(), i64> {
        let index = self.known(x)?;
        self.domains[index] = self.domains[index].intersection(allowed).map_err(out_of_memory)?;
        Ok(())
    }
}

// ---- rules

impl<B: Width> Solver<B> {
    pub fn at_most(&mut self, x: i64, by: i64, y: i64) -> Result<(), i64> {
        let [x, y] = self.pair(x, y)?;
        self.rules.push(Rule::AtMost { x, y, by }).map_err(out_of_memory)
    }

    pub fn equals(&mut self, x: i64, by: i64, y: i64) -> Result<(), i64> {
        let [x, y] = self.pair(x, y)?;
        self.rules.push(Rule::Shifted { x, y, by }).map_err(out_of_memory)
    }

    pub fn differs(&mut self, x: i64, by: i64, y: i64) -> Result<(), i64> {
        let [x, y] = self.pair(x, y)?;
        self.rules.push(Rule::Differs { x, y, by }).map_err(out_of_memory)
    }

    pub fn all_different(&mut self, variables: &[i64]) -> Result<(), i64> {
        let mut added = Vec::new(Global);
        for (i, x) in variables.iter().enumerate() {
            self.known(*x)?;
            for y in &variables[i + 1..] {
                let [x, y] = self.pair(*x, *y)?;
                added.push(Rule::Differs { x, y, by: 0 }).map_err(out_of_memory)?;
            }
        }
        self.rules.extend_from_slice(&added).map_err(out_of_memory)
    }

    pub fn sum(&mut self, variables: &[i64], total: i64) -> Result<(), i64> {
        let mut terms = Vec::new(Global);
        let total_index = self.known(total)?;
        for (i, x) in variables.iter().enumerate() {
            if *x == total || variables[..i].contains(x) {
                return Err(SAME_VARIABLE);
            }
            terms.push(self.known(*x)?).map_err(out_of_memory)?;
        }
        self.partial_sums(&terms, |_, _| Ok(()))?;
        match terms[..] {
            [] => self.restrict(total, &numbers(0, 0).map_err(out_of_memory)?),
            [x] => self.rules.push(Rule::Shifted { x, y: total_index, by: 0 }).map_err(out_of_memory),
            _ => self.sums.push(Sum { terms, total: total_index }).map_err(out_of_memory),
        }
    }

    pub fn no_overlap(&mut self, tasks: &[Task]) -> Result<(), i64> {
        let mut added = Vec::new(Global);
        for (i, first) in tasks.iter().enumerate() {
            self.known(first.variable)?;
            for second in &tasks[i + 1..] {
                let [x, y] = self.pair(first.variable, second.variable)?;
                let pair = Apart { x, x_length: first.length.into(), y, y_length: second.length.into() };
                self.distance(&pair)?;
                added.push(pair).map_err(out_of_memory)?;
            }
        }
        self.apart.extend_from_slice(&added).map_err(out_of_memory)
    }
}

// ---- what a search is given

impl<B: Width> Posed<B> {
    fn add(&mut self, domain: IntervalSet<B>) -> Result<usize, AllocError> {
        self.domains.push(domain)?;
        Ok(self.domains.len() - 1)
    }

    fn add_sum(&mut self, x: usize, y: usize, z: usize) -> Result<(), AllocError> {
        self.rules.push(Rule::Sum(Constraint { x, y, z }))
    }
}

impl<B: Width> Solver<B> {
    fn posed(&self) -> Result<Posed<B>, i64> {
        let domains = copied(&self.domains, self.sums.len() + 2 * self.apart.len()).map_err(out_of_memory)?;
        let rules = Vec::from_slice(Global, &self.rules).map_err(out_of_memory)?;
        let mut posed = Posed { domains, rules };
        for sum in &self.sums {
            self.pose_sum(sum, &mut posed)?;
        }
        for pair in &self.apart {
            self.pose_apart(pair, &mut posed)?;
        }
        Ok(posed)
    }

    /// The sum of the first two terms, of this and the third, and so on up to the total.
    fn pose_sum(&self, sum: &Sum, posed: &mut Posed<B>) -> Result<(), i64> {
        let (mut so_far, mut rest) = (sum.terms[0], sum.terms[1..].iter());
        // a domain that was restricted since then leaves sums within the range
        self.partial_sums(&sum.terms, |least, most| {
            let next = posed.add(numbers(least, most)?)?;
            let term = rest.next().copied().unwrap_or(so_far);
            posed.add_sum(so_far, term, next)?;
            so_far = next;
            Ok(())
        })?;
        let last = sum.terms[sum.terms.len() - 1];
        posed.add_sum(so_far, last, sum.total).map_err(out_of_memory)
    }

    /// The distance from the first beginning to the second, which is not that of tasks that overlap.
    fn pose_apart(&self, pair: &Apart, posed: &mut Posed<B>) -> Result<(), i64> {
        let (least, most, shift) = self.distance(pair)?;
        let before = numbers(least + shift, (-pair.y_length).min(most) + shift).map_err(out_of_memory)?;
        let after = numbers(pair.x_length.max(least) + shift, most + shift).map_err(out_of_memory)?;
        let distances = before.union(&after).map_err(out_of_memory)?;
        let distance = posed.add(distances).map_err(out_of_memory)?;
        let Some((y_least, y_most)) = self.ends(pair.y).filter(|_| shift > 0) else {
            return posed.add_sum(pair.x, distance, pair.y).map_err(out_of_memory);
        };
        let moved = numbers(y_least + shift, y_most + shift).and_then(|set| posed.add(set)).map_err(out_of_memory)?;
        let by = i64::try_from(shift).map_err(|_| SUM_OUT_OF_RANGE)?;
        posed.rules.push(Rule::Shifted { x: pair.y, y: moved, by }).map_err(out_of_memory)?;
        posed.add_sum(pair.x, distance, moved).map_err(out_of_memory)
    }

    /// Gives the least and the greatest of the sums of the first two terms, of the first three and so on, but not of all. Fails if some
    /// may be outside the range. In a solution they are on the way from 0 to the total, if all terms have the same sign.
    fn partial_sums(
        &self,
        terms: &[usize],
        mut use_ends: impl FnMut(i128, i128) -> Result<(), AllocError>,
    ) -> Result<(), i64> {
        let is_empty = terms.iter().any(|term| self.ends(*term).is_none());
        let ends = |term: &usize| self.ends(*term).unwrap_or_default();
        let (least, most) = (B::min_value().number(), B::max_value().number());
        let (rise, fall) = (terms.iter().all(|term| ends(term).0 >= 0), terms.iter().all(|term| ends(term).1 <= 0));
        let (mut lower, mut upper) = (0, 0);
        for (i, (low, high)) in terms.iter().map(ends).enumerate() {
            (lower, upper) = (lower + low, upper + high);
            if i == 0 || i + 1 == terms.len() {
                continue;
            }
            let fits = (lower >= least || fall) && (upper <= most || rise);
            match (is_empty, fits) {
                // where a domain is empty, so are the sums
                (true, _) => use_ends(1, 0).map_err(out_of_memory)?,
                (_, true) => use_ends(lower.max(least), upper.min(most)).map_err(out_of_memory)?,
                _ => return Err(SUM_OUT_OF_RANGE),
            }
        }
        Ok(())
    }

    /// The least and the greatest distance from the first beginning to the second, and the shift by which they are no less than the
    /// least number of the range; of no beginnings, no distances. Fails if they are then outside the range.
    fn distance(&self, pair: &Apart) -> Result<(i128, i128, i128), i64> {
        let Some(((x_least, x_most), (y_least, y_most))) = self.ends(pair.x).zip(self.ends(pair.y)) else {
            return Ok((1, 0, 0));
        };
        let (least, most) = (y_least - x_most, y_most - x_least);
        let shift = (B::min_value().number() - least).max(0);
        let limit = B::max_value().number();
        let fits = most + shift <= limit && y_most + shift <= limit && i64::try_from(shift).is_ok();
        if fits { Ok((least, most, shift)) } else { Err(SUM_OUT_OF_RANGE) }
    }

    /// The least and the greatest number of a domain.
    fn ends(&self, variable: usize) -> Option<(i128, i128)> {
        let domain = &self.domains[variable];
        (!domain.is_empty()).then(|| (domain.lower().number(), domain.upper().number()))
    }
}

/// The set of the numbers from one to another, of those in the range.
fn numbers<B: Width>(lower: i128, upper: i128) -> Result<IntervalSet<B>, AllocError> {
    let (least, most) = (B::min_value(), B::max_value());
    let (lower, upper) = (lower.max(least.number()), upper.min(most.number()));
    match (B::from_number(lower), B::from_number(upper)) {
        (Some(lower), Some(upper)) if lower <= upper => IntervalSet::new(Global, lower, upper),
        _ => Ok(IntervalSet::empty(Global)),
    }
}

/// A copy of sets, with room for so many more.
fn copied<B: Width>(sets: &[IntervalSet<B>], more: usize) -> Result<Vec<IntervalSet<B>>, AllocError> {
    let mut made = Vec::with_capacity(Global, sets.len() + more)?;
    for set in sets {
        made.push(set.try_clone()?)?;
    }
    Ok(made)
}

// ---- searches

impl<B: Width> Solver<B> {
    pub fn stop(&self, stops: bool) {
        self.stops.store(stops, Ordering::Relaxed);
    }

    pub fn solutions(&self, limits: Limits) -> Result<Solutions<B>, i64> {
        let found = self.searched(|posed| rules::solutions(Global, &posed.domains, &posed.rules, limits))?;
        let Found { points, end } = found;
        Ok(Solutions { points, width: self.domains.len(), end, next: 0 })
    }

    pub fn count(&self, limits: Limits) -> Result<(usize, End), i64> {
        self.searched(|posed| rules::count(Global, &posed.domains, &posed.rules, limits))
    }

    /// One solution, if there is any.
    pub fn first(&self, limits: Limits) -> Result<Best<B>, i64> {
        let limits = Limits { solutions: limits.solutions.min(1), ..limits };
        let mut found = self.solutions(limits)?;
        let end = if found.points.is_empty() { found.end } else { End::All };
        Ok(Best { point: found.points.pop(), end })
    }

    pub fn minimize(&self, x: i64, limits: Limits) -> Result<Best<B>, i64> {
        let variable = self.known(x)?;
        self.searched(|posed| rules::least(Global, &posed.domains, &posed.rules, variable, limits))
    }

    pub fn maximize(&self, x: i64, limits: Limits) -> Result<Best<B>, i64> {
        let variable = self.known(x)?;
        self.searched(|posed| rules::greatest(Global, &posed.domains, &posed.rules, variable, limits))
    }

    /// Searches, unless it is to stop.
    fn searched<R>(&self, search: impl FnOnce(&Posed<B>) -> Result<R, SearchFault>) -> Result<R, i64> {
        let is_stopped = || self.stops.load(Ordering::Relaxed);
        if is_stopped() {
            return Err(STOPPED);
        }
        let posed = self.posed()?;
        memory::unless(&self.stops, || search(&posed)).map_err(|fault| match fault {
            SearchFault::Memory if is_stopped() => STOPPED,
            SearchFault::Memory => OUT_OF_MEMORY,
            SearchFault::Variable(_) => unreachable!("a rule names a variable of the model"),
        })
    }
}

// ---- what was found

/// Writes the numbers of the variables of a model, as many as there is room for.
fn write<B: Copy>(point: &[B], numbers: &mut [B]) {
    let count = point.len().min(numbers.len());
    numbers[..count].copy_from_slice(&point[..count]);
}

/// Writes the best solution: 1 for the best, 2 for the best until a limit ended the search, 0 if there is none.
pub fn best<B: Width>(solver: &Solver<B>, found: Result<Best<B>, i64>, numbers: &mut [B]) -> Told {
    let found = found?;
    let Some(point) = found.point else {
        return if found.end == End::All { Ok(0) } else { Err(UNFINISHED) };
    };
    write(&point[..solver.domains.len()], numbers);
    Ok(if found.end == End::All { 1 } else { 2 })
}

pub fn end_of(end: End) -> i64 {
    match end {
        End::All => 0,
        End::Solutions => 1,
        End::Nodes => 2,
    }
}

impl<B: Width> Solutions<B> {
    pub fn count(&self) -> u64 {
        self.points.len() as u64
    }

    pub fn end(&self) -> Told {
        Ok(end_of(self.end))
    }

    pub fn at(&self, index: u64, numbers: &mut [B]) -> Told {
        let Some(point) = usize::try_from(index).ok().and_then(|index| self.points.get(index)) else { return Ok(0) };
        write(&point[..self.width], numbers);
        Ok(1)
    }

    /// Writes the solution after the last one that was written. After all: 0, or a code if a limit ended the search.
    pub fn next(&mut self, numbers: &mut [B]) -> Told {
        if self.next == self.points.len() {
            return if self.end == End::All { Ok(0) } else { Err(UNFINISHED) };
        }
        self.next += 1;
        self.at(self.next as u64 - 1, numbers)
    }
}
