//! Narrowing by a rule beside all points: of the domains of `i8`, at the ends of their range and of shifts too.
use intervallum::proved::Global;
use intervallum::proved::interval_set::{IntervalSet, ToIntervalSet};
use intervallum::proved::ivl_rules::rules::Rule;
use intervallum::proved::ivl_rules::rules::narrowing::{lone_loss, narrow, takes_nothing};
use intervallum::proved::ivl_store::store::Constraint;

mod memory;
use memory::{Watched, cost};

#[global_allocator]
static ALLOCATOR: Watched = Watched;

// a debug build tests conditions, and takes a hundred times as long
const ROUNDS: usize = if cfg!(debug_assertions) { 4_000 } else { 200_000 };

struct Random(u64);

impl Random {
    fn below(&mut self, bound: u64) -> u64 {
        self.0 ^= self.0 << 13;
        self.0 ^= self.0 >> 7;
        self.0 ^= self.0 << 17;
        self.0 % bound
    }

    fn one_of<T: Copy>(&mut self, some: &[T]) -> T {
        some[self.below(some.len() as u64) as usize]
    }
}

type Numbers = Vec<i64>;

/// A few numbers near one of the ends of `i8` or near 0; at times none.
fn numbers(random: &mut Random) -> Numbers {
    let middle = random.one_of(&[-127 + 12, 0, 0, 127 - 12]);
    let density = random.one_of(&[0, 1, 3, 6]);
    (middle - 12..=middle + 12).filter(|_| random.below(6) < density).collect()
}

fn set(numbers: &Numbers) -> IntervalSet<i8> {
    let pairs: Vec<(i8, i8)> = numbers.iter().map(|&n| (n as i8, n as i8)).collect();
    pairs.as_slice().to_interval_set(Global).unwrap()
}

/// Two different places of three.
fn places(random: &mut Random) -> (usize, usize, usize) {
    random.one_of(&[(0, 1, 2), (0, 2, 1), (1, 0, 2), (1, 2, 0), (2, 0, 1), (2, 1, 0)])
}

fn rule(random: &mut Random) -> Rule {
    let (x, y, z) = places(random);
    let near = random.below(31) as i64 - 15;
    let by = random.one_of(&[near, near, near, 0, 230, -230, 254, -254, 300, i64::MAX, i64::MIN]);
    match random.below(4) {
        0 => Rule::Sum(Constraint { x, y, z }),
        1 => Rule::Shifted { x, y, by },
        2 => Rule::AtMost { x, y, by },
        _ => Rule::Differs { x, y, by },
    }
}

fn satisfies(rule: &Rule, point: &[i64; 3]) -> bool {
    let at = |i: usize| point[i] as i128;
    match *rule {
        Rule::Sum(c) => at(c.x) + at(c.y) == at(c.z),
        Rule::Shifted { x, y, by } => at(x) + by as i128 == at(y),
        Rule::AtMost { x, y, by } => at(x) + by as i128 <= at(y),
        Rule::Differs { x, y, by } => at(x) + by as i128 != at(y),
    }
}

/// The members of the domain of variable `i` that are in a point of the domains which satisfies the rule.
fn supported(rule: &Rule, domains: &[Numbers], i: usize) -> Numbers {
    // what the rule does not name takes one number, though its domain be empty
    let choices: Vec<Numbers> = (0..3).map(|j| if rule.names(j) { domains[j].clone() } else { vec![0] }).collect();
    let is_in_point = |&n: &i64| {
        choices[0].iter().any(|&a| {
            choices[1].iter().any(|&b| choices[2].iter().any(|&c| [a, b, c][i] == n && satisfies(rule, &[a, b, c])))
        })
    };
    domains[i].iter().copied().filter(is_in_point).collect()
}

#[test]
fn narrowing_leaves_what_some_point_has() {
    let mut random = Random(0x2545_f491_4f6c_dd1d);
    let mut lost_by = [0; 4];
    for _ in 0..ROUNDS {
        let before: Vec<Numbers> = (0..3).map(|_| numbers(&mut random)).collect();
        let rule = rule(&mut random);
        let after: Vec<Numbers> =
            (0..3).map(|i| if rule.names(i) { supported(&rule, &before, i) } else { before[i].clone() }).collect();
        let mut domains: Vec<IntervalSet<i8>> = before.iter().map(set).collect();
        let lost = narrow(&mut domains, &rule).unwrap();
        assert_eq!(lost, after != before, "{rule:?} over {before:?}");
        for (domain, numbers) in domains.iter().zip(&after) {
            assert!(*domain == set(numbers), "{rule:?} over {before:?} leaves {domain}");
        }
        let again = narrow(&mut domains, &rule).unwrap();
        assert!(!again, "{rule:?} over {before:?} narrows twice");
        let kind = match rule {
            Rule::Sum(_) => 0,
            Rule::Shifted { .. } => 1,
            Rule::AtMost { .. } => 2,
            Rule::Differs { .. } => 3,
        };
        lost_by[kind] += usize::from(lost);
    }
    assert!(lost_by.iter().all(|&times| times > ROUNDS / 40), "{lost_by:?}");
}

/// What a rule takes of the domains that it names: variables and numbers.
fn taken(rule: &Rule, domains: &[Numbers]) -> Vec<(usize, i64)> {
    let named = (0..3).filter(|&i| rule.names(i));
    named
        .flat_map(|i| {
            let left = supported(rule, domains, i);
            let lost: Numbers = domains[i].iter().copied().filter(|n| !left.contains(n)).collect();
            lost.into_iter().map(move |n| (i, n))
        })
        .collect()
}

#[test]
fn a_lone_loss_is_all_that_narrowing_takes() {
    let mut random = Random(0x9e37_79b9_7f4a_7c15);
    let mut told = 0;
    for _ in 0..ROUNDS {
        let mut domains: Vec<Numbers> = (0..3).map(|_| numbers(&mut random)).collect();
        domains[random.below(3) as usize].truncate(1);
        let rule = rule(&mut random);
        let sets: Vec<IntervalSet<i8>> = domains.iter().map(set).collect();
        let lost = taken(&rule, &domains);
        let is_filled = (0..3).all(|i| !rule.names(i) || !domains[i].is_empty());
        let is_lone = matches!(rule, Rule::Differs { .. }) && is_filled && lost.len() == 1;
        let answer = lone_loss(&sets, &rule).map(|(variable, number)| (variable, number as i64));
        assert_eq!(answer, if is_lone { Some(lost[0]) } else { None }, "{rule:?} over {domains:?}");
        told += usize::from(is_lone);
    }
    assert!(told > ROUNDS / 400, "{told}");
}

#[test]
fn where_nothing_is_lost_a_rule_of_two_says_so_without_memory() {
    let mut random = Random(0x1234_5678_9abc_def1);
    let mut kept = [0; 3];
    for _ in 0..ROUNDS {
        let mut domains: Vec<Numbers> = (0..3).map(|_| numbers(&mut random)).collect();
        if random.below(2) == 0 {
            domains[random.below(3) as usize].truncate(1);
        }
        let rule = rule(&mut random);
        if let Rule::Shifted { x, y, by } = rule {
            // else something is lost nearly always
            let moved = |n: i64| n.checked_add(by).filter(|sum| (-127..=127).contains(sum));
            domains[x].retain(|&n| moved(n).is_some());
            domains[y] = domains[x].iter().filter_map(|&n| moved(n)).collect();
        }
        let is_filled = (0..3).all(|i| !rule.names(i) || !domains[i].is_empty());
        let kind = match rule {
            Rule::Sum(_) => continue,
            Rule::Shifted { .. } => 0,
            Rule::AtMost { .. } => 1,
            Rule::Differs { .. } => 2,
        };
        let mut sets: Vec<IntervalSet<i8>> = domains.iter().map(set).collect();
        let takes = !taken(&rule, &domains).is_empty();
        // `AtMost` by its ends, `Differs` by a look for what a single number forbids
        let is_told = kind > 0 && is_filled && !takes;
        assert_eq!(takes_nothing(&sets, &rule), is_told, "{rule:?} over {domains:?}");
        if !takes {
            let (lost, told) = cost(|| narrow(&mut sets, &rule).unwrap());
            assert_eq!((lost, told.allocations), (false, 0), "{rule:?} over {domains:?}");
            kept[kind] += usize::from(is_filled);
        }
    }
    assert!(kept.iter().all(|&times| times > ROUNDS / 100), "{kept:?}");
}

#[test]
fn rules_tell_their_variables() {
    let before = Rule::AtMost { x: 4, y: 2, by: -3 };
    assert_eq!(before.places(), Constraint { x: 4, y: 2, z: 2 });
    assert!(before.names(4) && before.names(2) && !before.names(3));
    assert_eq!((before.first_unknown(4), before.first_unknown(5)), (Some(4), None));
    assert!(before.is_over_different() && !Rule::Shifted { x: 1, y: 1, by: 0 }.is_over_different());
    assert!(!Rule::Sum(Constraint { x: 1, y: 2, z: 1 }).is_over_different());
}
