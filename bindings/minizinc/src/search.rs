//! The proved search over the network, in stages where the time is limited, and in parts where there are many solutions.

use crate::network::{Network, Set};
use crate::output::{ALL, NONE, Output, Shown, solution};
use intervallum::proved::Global;
use intervallum::proved::IntervalSet as Domain;
use intervallum::proved::ivl_search::search::rules::{greatest, least, solutions};
use intervallum::proved::ivl_search::search::{Best, End, Found, Limits, SearchFault};
use std::collections::HashSet;
use std::sync::{Mutex, MutexGuard, PoisonError};

/// How many nodes the first stage visits, and how many times as many each next one: the time of all stages is that of the last
/// and a third of it.
const FIRST_NODES: u64 = 2_000;
const MORE_NODES: u64 = 4;

/// How many numbers the points of one search have at most, in all; and how many points it may find however long they are.
const MOST_NUMBERS: usize = 8_000_000;
const LEAST_POINTS: usize = 100;

/// Which points are wanted.
#[derive(Clone, Copy, Debug, PartialEq)]
pub enum Aim {
    Any,
    Least(usize),
    Greatest(usize),
}

pub struct Task<'a> {
    pub network: Network,
    pub aim: Aim,
    /// Two solutions differ in one of these.
    pub variables: Vec<usize>,
    pub shown: Vec<Shown<'a>>,
    /// How many solutions are wanted.
    pub wanted: usize,
    /// Of a goal, whether better and better solutions are printed.
    pub shows_better: bool,
    /// Whether what is found before the time ends is to be printed.
    pub is_timed: bool,
}

/// Searches, prints, and returns how many solutions were found.
pub fn search(task: &mut Task, output: &Mutex<Output>) -> Result<usize, String> {
    task.fix_unnamed();
    if task.network.is_impossible {
        task.network.domains.push(Set::empty());
    }
    let mut search = Search { task, output, seen: HashSet::new(), count: 0, has_more: false };
    let is_all = match search.task.aim {
        Aim::Any => search.all_parts()?,
        Aim::Least(_) | Aim::Greatest(_) => search.best()?,
    };
    if is_all {
        search.finish()?
    } else {
        search.stop()?
    }
    Ok(search.count)
}

impl Task<'_> {
    /// Gives each variable that no rule names, and that the user does not have, its least number: any of them does.
    fn fix_unnamed(&mut self) {
        let mut is_named = vec![false; self.network.domains.len()];
        let places = self.network.rules.iter().map(|rule| rule.places());
        for variable in places.flat_map(|places| [places.x, places.y, places.z]).chain(self.variables.iter().copied()) {
            is_named[variable] = true;
        }
        for (domain, _) in self.network.domains.iter_mut().zip(is_named).filter(|(_, is_named)| !is_named) {
            *domain = domain.within(..=domain.lower());
        }
    }

    fn first_nodes(&self) -> u64 {
        if self.is_timed { FIRST_NODES } else { u64::MAX }
    }
}

/// What is cut from the domains of the network: a part of what is searched.
type Part = Vec<(usize, Set)>;

struct Search<'a, 'b> {
    task: &'a Task<'b>,
    output: &'a Mutex<Output>,
    /// The numbers that the solutions which were printed give to the variables of the user: of this part, or of all if the time is
    /// limited.
    seen: HashSet<Vec<i64>>,
    count: usize,
    /// A solution was found that is one too many.
    has_more: bool,
}

impl Search<'_, '_> {
    /// Prints the solutions, and tells whether these are all.
    fn all_parts(&mut self) -> Result<bool, String> {
        let mut left: Vec<Part> = vec![Vec::new()];
        while let Some(part) = left.pop() {
            if self.has_enough() {
                return Ok(false);
            }
            if !self.task.is_timed {
                self.seen.clear();
            }
            left.extend(self.part(&part)?);
        }
        Ok(true)
    }

    /// Prints the solutions of a part; or returns its halves, if there are too many for one search.
    fn part(&mut self, part: &Part) -> Result<Vec<Part>, String> {
        let domains = self.domains(part);
        let most = (MOST_NUMBERS / (domains.len() + 1)).max(LEAST_POINTS);
        let mut limits = Limits { solutions: self.task.wanted.min(most), nodes: self.task.first_nodes() };
        loop {
            let Found { points, end } = solutions(Global, &domains, &self.task.network.rules, limits).map_err(told)?;
            let halves = if end == End::Solutions && limits.solutions == most {
                self.halves(part, points.as_slice())
            } else {
                None
            };
            if halves.is_none() || self.task.is_timed {
                points.iter().try_for_each(|point| self.take(point.as_slice()))?;
            }
            match end {
                End::All if !self.has_more => return Ok(Vec::new()),
                // (a part is left, whichever)
                _ if self.has_enough() => return Ok(vec![Vec::new()]),
                End::All => return Ok(Vec::new()),
                End::Nodes => limits.nodes = limits.nodes.saturating_mul(MORE_NODES),
                End::Solutions if limits.solutions < most => {
                    limits.solutions = limits.solutions.saturating_mul(2).min(most)
                }
                End::Solutions => return Ok(halves.unwrap_or_default()),
            }
        }
    }

    fn domains(&self, part: &Part) -> Vec<Domain<i64>> {
        let mut domains = self.task.network.domains.clone();
        for (variable, domain) in part {
            domains[*variable] = domain.clone();
        }
        domains.into_iter().map(Domain::from).collect()
    }

    /// Halves the domain of that variable of the user which has most numbers at the points. Without one, all points of the part
    /// are one to the user.
    fn halves<P: std::ops::Deref<Target = [i64]>>(&self, part: &Part, points: &[P]) -> Option<Vec<Part>> {
        let domain = |variable: usize| {
            part.iter().rev().find(|cut| cut.0 == variable).map_or(&self.task.network.domains[variable], |cut| &cut.1)
        };
        let count = |variable: usize| points.iter().map(|point| point[variable]).collect::<HashSet<i64>>().len();
        let open = self.task.variables.iter().copied().filter(|variable| domain(*variable).size() > 1);
        let variable = open.max_by_key(|variable| count(*variable))?;
        let domain = domain(variable);
        let middle = domain.nth(domain.size() / 2)?;
        let half = |half: Set| part.iter().cloned().chain([(variable, half)]).collect();
        // the part that is searched next comes last
        Some(vec![half(domain.within(middle..)), half(domain.within(..middle))])
    }

    /// Keeps the best solution to be printed, and tells whether none is better.
    fn best(&mut self) -> Result<bool, String> {
        let domains = self.domains(&Vec::new());
        let mut limits = Limits { solutions: usize::MAX, nodes: self.task.first_nodes() };
        loop {
            let rules = &self.task.network.rules;
            let best = match self.task.aim {
                Aim::Greatest(variable) => greatest(Global, &domains, rules, variable, limits),
                Aim::Least(variable) => least(Global, &domains, rules, variable, limits),
                Aim::Any => return Err("there is no goal".into()),
            };
            let Best { point, end } = best.map_err(told)?;
            point.iter().try_for_each(|point| self.take(point.as_slice()))?;
            match end {
                End::All => return Ok(true),
                End::Solutions => return Ok(false),
                End::Nodes => limits.nodes = limits.nodes.saturating_mul(MORE_NODES),
            }
        }
    }

    /// Prints a solution that differs from those before in the variables of the user; of a goal, it is kept until a better one comes.
    fn take(&mut self, point: &[i64]) -> Result<(), String> {
        if !self.seen.insert(self.task.variables.iter().map(|variable| point[*variable]).collect()) {
            return Ok(());
        }
        if self.has_enough() {
            self.has_more = true;
            return Ok(());
        }
        self.count += 1;
        let text = solution(&self.task.shown, point);
        let mut output = self.lock();
        output.has_solution = true;
        if self.task.aim == Aim::Any || self.task.shows_better {
            return output.print(&text).map_err(|fault| fault.to_string());
        }
        output.best = Some(text);
        Ok(())
    }

    fn has_enough(&self) -> bool {
        self.task.aim == Aim::Any && self.count >= self.task.wanted
    }

    fn lock(&self) -> MutexGuard<'_, Output> {
        self.output.lock().unwrap_or_else(PoisonError::into_inner)
    }

    fn finish(&self) -> Result<(), String> {
        let mut output = self.lock();
        let end = if self.count == 0 { NONE } else { ALL };
        output.print_best().and_then(|()| output.print(&format!("{end}\n"))).map_err(|fault| fault.to_string())
    }

    fn stop(&self) -> Result<(), String> {
        self.lock().stop().map_err(|fault| fault.to_string())
    }
}

fn told(fault: SearchFault) -> String {
    match fault {
        SearchFault::Memory => "out of memory in the search".into(),
        SearchFault::Variable(variable) => format!("a rule names variable {variable}, which is not there"),
    }
}
