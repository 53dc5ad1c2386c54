//! Searches over every kind of rule beside all points, and puzzles written by rules beside the number of their solutions.
use intervallum::proved::Global;
use intervallum::proved::interval_set::{IntervalSet, ToIntervalSet};
use intervallum::proved::ivl_rules::rules::Rule;
use intervallum::proved::ivl_search::search::rules::{all_different, count, greatest, least, solutions, try_solutions};
use intervallum::proved::ivl_search::search::{End, Limits, SearchFault};
use intervallum::proved::ivl_store::store::Constraint;

// a debug build tests conditions, and takes a hundred times as long
const MODELS: usize = if cfg!(debug_assertions) { 100 } else { 10_000 };
const AMPLE: Limits = Limits { solutions: 100_000, nodes: 1_000_000 };

struct Random(u64);

impl Random {
    fn below(&mut self, bound: usize) -> usize {
        self.0 ^= self.0 << 13;
        self.0 ^= self.0 >> 7;
        self.0 ^= self.0 << 17;
        (self.0 % bound as u64) as usize
    }
}

type Numbers = Vec<i64>;

fn set(numbers: &Numbers) -> IntervalSet<i64> {
    let pairs: Vec<(i64, i64)> = numbers.iter().map(|&n| (n, n)).collect();
    pairs.as_slice().to_interval_set(Global).unwrap()
}

fn rule(random: &mut Random, count: usize) -> Rule {
    let x = random.below(count);
    let y = (x + 1 + random.below(count - 1)) % count;
    let others: Vec<usize> = (0..count).filter(|i| ![x, y].contains(i)).collect();
    let by = random.below(7) as i64 - 3;
    match random.below(4) {
        0 => Rule::Sum(Constraint { x, y, z: others[random.below(others.len())] }),
        1 => Rule::Shifted { x, y, by },
        2 => Rule::AtMost { x, y, by },
        _ => Rule::Differs { x, y, by },
    }
}

fn satisfies(rule: &Rule, point: &Numbers) -> bool {
    match *rule {
        Rule::Sum(c) => point[c.x] + point[c.y] == point[c.z],
        Rule::Shifted { x, y, by } => point[x] + by == point[y],
        Rule::AtMost { x, y, by } => point[x] + by <= point[y],
        Rule::Differs { x, y, by } => point[x] + by != point[y],
    }
}

/// All points of the domains that satisfy the rules, in order.
fn points(domains: &[Numbers], rules: &[Rule]) -> Vec<Numbers> {
    let mut points: Vec<Numbers> = vec![vec![]];
    for domain in domains {
        points = points.iter().flat_map(|p| domain.iter().map(move |&n| [p.as_slice(), &[n]].concat())).collect();
    }
    points.retain(|point| rules.iter().all(|rule| satisfies(rule, point)));
    points
}

#[test]
fn searches_find_what_satisfies_the_rules() {
    let mut random = Random(0x2545_f491_4f6c_dd1d);
    let (mut none, mut some) = (0, 0);
    for _ in 0..MODELS {
        let variables = 3 + random.below(3);
        let domains: Vec<Numbers> = (0..variables)
            .map(|_| {
                let density = 2 + random.below(4);
                (-2..=4).filter(|_| random.below(6) < density).collect()
            })
            .collect();
        let rules: Vec<Rule> = (0..random.below(7)).map(|_| rule(&mut random, variables)).collect();
        let sets: Vec<IntervalSet<i64>> = domains.iter().map(set).collect();
        let wanted = points(&domains, &rules);
        let found = solutions(Global, &sets, &rules, AMPLE).unwrap();
        let mut seen: Vec<Numbers> = found.points.iter().map(|point| point.to_vec()).collect();
        seen.sort();
        assert!(seen == wanted && found.end == End::All, "{rules:?} over {domains:?}: {seen:?}");
        assert_eq!(count(Global, &sets, &rules, AMPLE).unwrap(), (wanted.len(), End::All));
        let variable = random.below(variables);
        for (best, wanted) in [
            (least(Global, &sets, &rules, variable, AMPLE).unwrap(), wanted.iter().map(|p| p[variable]).min()),
            (greatest(Global, &sets, &rules, variable, AMPLE).unwrap(), wanted.iter().map(|p| p[variable]).max()),
        ] {
            assert_eq!((best.point.as_ref().map(|point| point[variable]), best.end), (wanted, End::All));
            assert!(best.point.is_none_or(|point| rules.iter().all(|rule| satisfies(rule, &point.to_vec()))));
        }
        none += usize::from(wanted.is_empty());
        some += usize::from(!wanted.is_empty());
    }
    assert!(none > MODELS / 20 && some > MODELS / 20, "{none}, {some}");
}

/// Each variable differs from each other.
fn different(variables: usize) -> Vec<Rule> {
    (0..variables).flat_map(|y| (0..y).map(move |x| Rule::Differs { x, y, by: 0 })).collect()
}

fn queens(size: usize) -> (Vec<IntervalSet<i64>>, Vec<Rule>) {
    let domains = (0..size).map(|_| IntervalSet::new(Global, 0, size as i64 - 1).unwrap()).collect();
    let mut rules = different(size);
    for y in 0..size {
        for x in 0..y {
            let apart = (y - x) as i64;
            rules.extend([Rule::Differs { x, y, by: apart }, Rule::Differs { x, y, by: -apart }]);
        }
    }
    (domains, rules)
}

#[test]
fn queens_by_one_variable_each() {
    for (size, solutions) in [(4, 2), (5, 10), (6, 4), (7, 40), (8, 92)] {
        let (domains, rules) = queens(size);
        assert_eq!(count(Global, &domains, &rules, AMPLE).unwrap(), (solutions, End::All), "{size} queens");
    }
}

#[test]
fn a_map_of_three_colours() {
    // the mainland of Australia, whose middle has a border with all but one: three colours for the middle, two for its neighbours
    let domains: Vec<IntervalSet<i64>> = (0..6).map(|_| IntervalSet::new(Global, 1, 3).unwrap()).collect();
    let borders = [(0, 1), (0, 2), (1, 2), (2, 3), (2, 4), (2, 5), (1, 3), (3, 4), (4, 5)];
    let rules: Vec<Rule> = borders.iter().map(|&(x, y)| Rule::Differs { x, y, by: 0 }).collect();
    assert_eq!(count(Global, &domains, &rules, AMPLE).unwrap(), (6, End::All));
}

#[test]
fn a_timetable_of_thirty_tasks() {
    // ten jobs of three tasks in order, each of which takes three hours; the first tasks share one machine, in order
    let domains: Vec<IntervalSet<i64>> = (0..30).map(|_| IntervalSet::new(Global, 0, 99).unwrap()).collect();
    let mut rules = Vec::new();
    for job in 0..10 {
        rules.extend([3 * job, 3 * job + 1].map(|x| Rule::AtMost { x, y: x + 1, by: 3 }));
        if job > 0 {
            rules.push(Rule::AtMost { x: 3 * job - 3, y: 3 * job, by: 3 });
        }
    }
    let best = least(Global, &domains, &rules, 29, Limits { solutions: 100, nodes: 100_000 }).unwrap();
    assert_eq!((best.point.map(|point| point[29]), best.end), (Some(33), End::All));
}

#[test]
fn faults_and_conditions_are_told() {
    let domains = [IntervalSet::new(Global, 0, 9).unwrap(), IntervalSet::new(Global, 0, 9).unwrap()];
    let far = [Rule::AtMost { x: 0, y: 1, by: 0 }, Rule::Sum(Constraint { x: 0, y: 3, z: 1 })];
    assert_eq!(count(Global, &domains, &far, AMPLE), Err(SearchFault::Variable(3)));
    assert!(matches!(least(Global, &domains, &far[..1], 2, AMPLE), Err(SearchFault::Variable(2))));
    let twice = [Rule::Differs { x: 1, y: 1, by: 2 }];
    assert!(!all_different(&twice) && all_different(&far));
    assert!(try_solutions(Global, &domains, &twice, AMPLE).unwrap().is_none());
    let all = try_solutions(Global, &domains, &far[..1], AMPLE).unwrap().unwrap();
    assert_eq!((all.points.len(), all.end), (55, End::All));
    let few = solutions(Global, &domains, &far[..1], Limits { solutions: 5, nodes: 100 }).unwrap();
    assert_eq!((few.points.len(), few.end), (5, End::Solutions));
    let none = count(Global, &domains, &far[..1], Limits { solutions: 5, nodes: 0 }).unwrap();
    assert_eq!(none, (0, End::Nodes));
}
