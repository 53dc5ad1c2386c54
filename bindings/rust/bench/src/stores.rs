//! Instances of the domain store, from fresh domains to the fixed point.
//!
//! A file has a line `domain l u l u ..` for each variable, and then a line `sum x y z` for each
//! constraint. The file of the same name that ends in `.fixed` has the greatest supported domains.

use crate::fault::Result;
use crate::inputs::set_of;
use intervallum::proved::interval_set::IntervalSet;
use intervallum::proved::ivl_store::store::{Constraint, Post, Store, StoreFault};
use intervallum::proved::{AllocError, Global};
use intervallum::rattle::vec::Vec;
use std::fs;
use std::str::FromStr;
use std::time::{Duration, Instant};

/// The instances that are solved without arguments: their names, their files and the `.fixed` ones.
const INSTANCES: [(&str, &str, &str); 4] = [
    ("chain", include_str!("../data/chain.txt"), include_str!("../data/chain.fixed")),
    ("random", include_str!("../data/random.txt"), include_str!("../data/random.fixed")),
    ("planted", include_str!("../data/planted.txt"), include_str!("../data/planted.fixed")),
    ("loop", include_str!("../data/loop.txt"), include_str!("../data/loop.fixed")),
];

/// How the fixed point is reached.
#[derive(Clone, Copy)]
enum Way {
    PostAll,
    Propagate,
}

impl Way {
    const BOTH: [Way; 2] = [Way::PostAll, Way::Propagate];

    fn name(self) -> &'static str {
        match self {
            Way::PostAll => "post_all",
            Way::Propagate => "propagate",
        }
    }
}

/// The domains and constraints of a file.
struct Instance {
    domains: Vec<IntervalSet<i64>>,
    constraints: Vec<Constraint>,
    posts: Vec<Post<i64>>,
}

impl Instance {
    /// The instance that a file has written.
    fn of(alloc: Global, text: &str) -> Result<Instance> {
        let mut instance = Instance::empty(alloc);
        for line in text.lines() {
            instance.add_line(alloc, line)?;
        }
        Ok(instance)
    }

    /// Adds what a line of a file has.
    fn add_line(&mut self, alloc: Global, text: &str) -> Result<()> {
        match text.split_once(' ').unwrap_or((text, "")) {
            ("domain", runs) => self.add_domain(domain(alloc, runs)?)?,
            ("sum", variables) => self.add_sum(constraint(alloc, variables)?)?,
            _ => return Err("no such line is known".into()),
        }
        Ok(())
    }

    fn add_domain(&mut self, domain: IntervalSet<i64>) -> Result<(), AllocError> {
        self.domains.push(domain)
    }

    fn add_sum(&mut self, constraint: Constraint) -> Result<(), AllocError> {
        self.constraints.push(constraint)?;
        self.posts.push(Post::Require(constraint))?;
        Ok(())
    }

    fn empty(alloc: Global) -> Instance {
        Instance { domains: Vec::new(alloc), constraints: Vec::new(alloc), posts: Vec::new(alloc) }
    }

    /// A store with the domains as they were read.
    fn fresh(&self, alloc: Global) -> Result<Store<i64>, AllocError> {
        let mut domains = Vec::with_capacity(alloc, self.domains.len())?;
        for domain in &self.domains {
            domains.push(domain.try_clone()?)?;
        }
        Ok(Store::new(alloc, domains))
    }

    /// Narrows a store to the fixed point; true where it is reached.
    fn solve(&self, store: &mut Store<i64>, way: Way) -> Result<bool, StoreFault> {
        match way {
            Way::PostAll => Ok(store.try_post_all(&self.posts)?.is_some()),
            Way::Propagate => store.propagate(&self.constraints, usize::MAX),
        }
    }
}

/// The set of runs `l u l u ..`.
fn domain(alloc: Global, runs: &str) -> Result<IntervalSet<i64>> {
    if runs.is_empty() {
        return Ok(IntervalSet::empty(alloc));
    }
    set_of(alloc, &pairs(alloc, &numbers(alloc, runs)?)?)
}

/// The numbers of a text, blanks between them.
fn numbers<N: FromStr + Copy>(alloc: Global, text: &str) -> Result<Vec<N>> {
    let mut numbers = Vec::new(alloc);
    for word in text.split(' ') {
        numbers.push(word.parse().ok().ok_or("a word is no number")?)?;
    }
    Ok(numbers)
}

/// The numbers two by two.
fn pairs(alloc: Global, numbers: &[i64]) -> Result<Vec<(i64, i64)>> {
    let mut pairs = Vec::new(alloc);
    for run in numbers.chunks(2) {
        match run {
            [lower, upper] => pairs.push((*lower, *upper))?,
            _ => return Err("a run has one bound".into()),
        }
    }
    Ok(pairs)
}

/// The constraint of variables `x y z`.
fn constraint(alloc: Global, variables: &str) -> Result<Constraint> {
    match numbers(alloc, variables)?.as_slice() {
        [x, y, z] => Ok(Constraint { x: *x, y: *y, z: *z }),
        _ => Err("a sum is of three variables".into()),
    }
}

/// Prints for each instance and each way whether the fixed point is reached, and how many domains are then those of its `.fixed`
/// file.
pub fn print_answers() -> Result<()> {
    for (name, instance, fixed) in INSTANCES {
        let (instance, fixed) = (Instance::of(Global, instance)?, Instance::of(Global, fixed)?);
        for way in Way::BOTH {
            let (is_fixed, same) = solved(Global, &instance, &fixed, way)?;
            println!("store {name} {} {is_fixed} {same} of {}", way.name(), fixed.domains.len());
        }
    }
    Ok(())
}

/// Whether an instance reaches its fixed point, and how many domains are then those of another.
fn solved(alloc: Global, instance: &Instance, fixed: &Instance, way: Way) -> Result<(bool, usize)> {
    let mut store = instance.fresh(alloc)?;
    let is_fixed = instance.solve(&mut store, way)?;
    Ok((is_fixed, same_domains(&store, fixed)))
}

/// How many domains of a store are those of an instance.
fn same_domains(store: &Store<i64>, fixed: &Instance) -> usize {
    let mut count: usize = 0;
    for (ours, theirs) in store.domains().iter().zip(&fixed.domains) {
        if ours == theirs {
            count = count.saturating_add(1);
        }
    }
    count
}

/// Prints for each way the least nanoseconds from fresh domains to the fixed point.
pub fn print_times(path: &str) -> Result<()> {
    let instance = Instance::of(Global, &fs::read_to_string(path)?)?;
    for way in Way::BOTH {
        println!("store {path} {} {}", way.name(), least_duration(&instance, way)?.as_nanos());
    }
    Ok(())
}

/// The least of the times that it takes within a second.
fn least_duration(instance: &Instance, way: Way) -> Result<Duration> {
    let mut least = duration(instance, way)?;
    let mut all = least;
    for _ in 0..1_000_000u32 {
        if all >= Duration::from_secs(1) {
            break;
        }
        let time = duration(instance, way)?;
        least = least.min(time);
        all = all.saturating_add(time);
    }
    Ok(least)
}

/// How long it takes once; the fresh domains are made before.
fn duration(instance: &Instance, way: Way) -> Result<Duration> {
    let mut store = instance.fresh(Global)?;
    let start = Instant::now();
    let _ = instance.solve(&mut store, way)?;
    Ok(start.elapsed())
}
