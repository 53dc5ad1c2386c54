//! Networks of every kind of rule beside plain lists of numbers: what is left when all is settled, marks and errors. Then what a
//! budget buys, and that lines leave nothing behind: what is kept to take one back goes with its mark.
use intervallum::proved::interval_set::{IntervalSet, ToIntervalSet};
use intervallum::proved::ivl_network::network::{Network, Settled};
use intervallum::proved::ivl_rules::rules::Rule;
use intervallum::proved::ivl_store::store::{Constraint, StoreFault};
use intervallum::proved::ops::{Cardinality, Range};
use intervallum::proved::{Global, Interval};

mod memory;
use memory::{Watched, cost};

#[global_allocator]
static ALLOCATOR: Watched = Watched;

// a debug build tests conditions, and takes a hundred times as long
const MODELS: usize = if cfg!(debug_assertions) { 100 } else { 4_000 };
const LINES: usize = 20;

struct Random(u64);

impl Random {
    fn below(&mut self, bound: usize) -> usize {
        self.0 ^= self.0 << 13;
        self.0 ^= self.0 >> 7;
        self.0 ^= self.0 << 17;
        (self.0 % bound as u64) as usize
    }
}

type Numbers = Vec<i64>;

fn set(numbers: &Numbers) -> IntervalSet<i8> {
    let pairs: Vec<(i8, i8)> = numbers.iter().map(|&n| (n as i8, n as i8)).collect();
    pairs.as_slice().to_interval_set(Global).unwrap()
}

fn numbers(random: &mut Random) -> Numbers {
    let density = 1 + random.below(4);
    (-6..=9).filter(|_| random.below(5) <= density).collect()
}

/// A rule over different variables of so many, three at least.
fn rule(random: &mut Random, count: usize) -> Rule {
    let x = random.below(count);
    let y = (x + 1 + random.below(count - 1)) % count;
    let others: Vec<usize> = (0..count).filter(|i| ![x, y].contains(i)).collect();
    let z = others[random.below(others.len())];
    let by = random.below(9) as i64 - 4;
    match random.below(4) {
        0 => Rule::Sum(Constraint { x, y, z }),
        1 => Rule::Shifted { x, y, by },
        2 => Rule::AtMost { x, y, by },
        _ => Rule::Differs { x, y, by },
    }
}

fn variables(rule: &Rule) -> Vec<usize> {
    let places = rule.places();
    let mut named = vec![places.x, places.y];
    if places.z != places.y {
        named.push(places.z);
    }
    named
}

fn satisfies(rule: &Rule, point: &[i64]) -> bool {
    match *rule {
        Rule::Sum(_) => point[0] + point[1] == point[2],
        Rule::Shifted { by, .. } => point[0] + by == point[1],
        Rule::AtMost { by, .. } => point[0] + by <= point[1],
        Rule::Differs { by, .. } => point[0] + by != point[1],
    }
}

/// The points of the domains of a rule's variables which satisfy it.
fn points(rule: &Rule, domains: &[Numbers]) -> Vec<Numbers> {
    let mut points: Vec<Numbers> = vec![vec![]];
    for i in variables(rule) {
        points = points.iter().flat_map(|p| domains[i].iter().map(move |&n| [p.as_slice(), &[n]].concat())).collect();
    }
    points.retain(|p| satisfies(rule, p));
    points
}

/// A model in plain lists: takes from the domains what no rule supports until nothing changes.
#[derive(Clone, Default)]
struct Model {
    domains: Vec<Numbers>,
    rules: Vec<Rule>,
}

impl Model {
    fn settle(&mut self) {
        loop {
            let before = self.domains.clone();
            for rule in &self.rules {
                let points = points(rule, &self.domains);
                for (place, i) in variables(rule).into_iter().enumerate() {
                    self.domains[i].retain(|&n| points.iter().any(|p| p[place] == n));
                }
            }
            if self.domains == before {
                return;
            }
        }
    }

    fn compare(&self, network: &Network<i8>) {
        assert_eq!(network.rules(), self.rules.as_slice());
        assert_eq!(network.domains().len(), self.domains.len());
        for (domain, numbers) in network.domains().iter().zip(&self.domains) {
            assert!(*domain == set(numbers), "{:?} leave {domain} and not {numbers:?}", self.rules);
        }
        assert_eq!(network.has_empty(), self.domains.iter().any(Vec::is_empty));
    }
}

/// Whether no rule is left to look at.
fn is_settled(network: &mut Network<i8>) -> bool {
    network.settle(0) == Ok(Settled::All)
}

/// One change of both, or a point to return to, and whether all was settled there.
fn step(random: &mut Random, model: &mut Model, marks: &mut Vec<(Model, bool)>, network: &mut Network<i8>) {
    let count = model.domains.len();
    match random.below(12) {
        0 if count < 6 => {
            let domain = numbers(random);
            assert_eq!(network.add_variable(set(&domain)), Ok(count));
            model.domains.push(domain);
        }
        1..=4 => {
            let rule = rule(random, count);
            assert_eq!(network.require(rule), Ok(()));
            if !model.rules.contains(&rule) {
                model.rules.push(rule);
            }
        }
        5 => {
            let (i, allowed) = (random.below(count), numbers(random));
            assert_eq!(network.restrict(i, &set(&allowed)), Ok(()));
            model.domains[i].retain(|n| allowed.contains(n));
            let (j, lower) = (random.below(count), random.below(8) as i64 - 8);
            let upper = lower + 6 + random.below(12) as i64;
            assert_eq!(network.restrict_to_interval(j, Interval::new(lower as i8, upper as i8)), Ok(()));
            model.domains[j].retain(|n| (lower..=upper).contains(n));
        }
        6 => {
            assert_eq!(network.mark(), Ok(marks.len()));
            marks.push((model.clone(), is_settled(network)));
        }
        7 if !marks.is_empty() => {
            let mark = random.below(marks.len());
            assert!(network.undo_to(mark));
            let (was, was_settled) = marks[mark].clone();
            assert!(is_settled(network) || !was_settled);
            *model = was;
            marks.truncate(mark);
        }
        8 => {
            let mark = random.below(marks.len() + 2);
            network.drop_marks(mark);
            marks.truncate(mark);
        }
        _ => {
            // by many small budgets, of each kind
            let mut calls = 0;
            loop {
                let budget = 1 + random.below(3) as u64;
                let settle = [Network::settle, Network::settle_within, Network::settle_unless_empty][random.below(3)];
                if settle(network, budget) == Ok(Settled::All) {
                    break;
                }
                calls += 1;
                assert!(calls < 10_000);
            }
            model.settle();
        }
    }
    if !is_settled(network) {
        return;
    }
    model.settle();
    model.compare(network);
}

#[test]
fn networks_leave_what_the_rules_support() {
    let mut random = Random(0x9e37_79b9_7f4a_7c15);
    let (mut settled, mut emptied) = (0, 0);
    for _ in 0..MODELS {
        let (mut model, mut marks, mut network) = (Model::default(), vec![], Network::new(Global));
        for _ in 0..3 {
            let domain = numbers(&mut random);
            network.add_variable(set(&domain)).unwrap();
            model.domains.push(domain);
        }
        for _ in 0..LINES {
            step(&mut random, &mut model, &mut marks, &mut network);
        }
        assert_eq!(network.settle(1_000_000), Ok(Settled::All));
        model.settle();
        model.compare(&network);
        settled += 1;
        emptied += usize::from(network.has_empty());
    }
    // neither kind of end is rare
    assert!(emptied > settled / 10 && emptied < settled * 9 / 10, "{emptied} of {settled}");
}

#[test]
fn rules_that_take_nothing_are_not_looked_at_again() {
    let cut = |network: &mut Network<i8>, variable, low, high| {
        network.restrict_to_interval(variable, Interval::new(low, high)).unwrap();
        is_settled(network)
    };
    for (rule, leaves, wakes) in [
        (Rule::Differs { x: 0, y: 1, by: 0 }, vec![(0, 0, 5), (1, 3, 8)], (0, 4, 4)),
        (Rule::AtMost { x: 0, y: 1, by: 0 }, vec![(0, 0, 5), (1, 2, 9)], (1, 2, 4)),
    ] {
        let mut network = Network::new(Global);
        for _ in 0..2 {
            network.add_variable(IntervalSet::new(Global, 0i8, 9).unwrap()).unwrap();
        }
        network.require(rule).unwrap();
        assert_eq!(network.settle(1), Ok(Settled::All));
        for (variable, low, high) in leaves {
            assert!(cut(&mut network, variable, low, high), "{rule:?} at {variable}");
        }
        let (variable, low, high) = wakes;
        assert!(!cut(&mut network, variable, low, high), "{rule:?}");
        assert_eq!(network.settle(1), Ok(Settled::All));
        // a single number that the other domain lacks takes nothing
        assert!(!matches!(rule, Rule::Differs { .. }) || cut(&mut network, 1, 5, 8));
    }
}

/// What a sum leaves of domains, where x and z begin so far from 0.
fn left_far_from_zero(domains: &[Numbers; 3], far: i64) -> Vec<Numbers> {
    let mut network = Network::new(Global);
    for (domain, by) in domains.iter().zip([far, 0, far]) {
        let pairs: Vec<(i64, i64)> = domain.iter().map(|&n| (n + by, n + by)).collect();
        network.add_variable(pairs.as_slice().to_interval_set(Global).unwrap()).unwrap();
    }
    network.require(Rule::Sum(Constraint { x: 0, y: 1, z: 2 })).unwrap();
    assert_eq!(network.settle(100), Ok(Settled::All));
    let left = network.domains().iter().zip([far, 0, far]);
    left.map(|(domain, by)| domain.members().map(|n| n - by).collect()).collect()
}

#[test]
fn sums_far_from_zero_leave_what_near_ones_do() {
    let mut random = Random(0x2545_f491_4f6c_dd1d);
    for _ in 0..MODELS / 16 {
        let domains = [0; 3].map(|_| numbers(&mut random));
        let near = left_far_from_zero(&domains, 0);
        // on both sides of where words end, and at the ends of the range
        for far in [(1 << 61) - 3, (1 << 61) + 3, 1 << 62, i64::MAX - 9] {
            assert_eq!(left_far_from_zero(&domains, far), near, "{domains:?} at {far}");
            assert_eq!(left_far_from_zero(&domains, 3 - far), near, "{domains:?} at {}", 3 - far);
        }
    }
}

/// How many narrowings settle a circle over so many numbers, beside a sum whose third variable may be named by another rule.
fn narrowings_beside_a_circle(numbers: i64, is_named: bool) -> i64 {
    let mut network = Network::new(Global);
    for (lower, upper) in [(0, numbers - 1), (0, numbers - 1), (-numbers, numbers), (0, 9 * numbers)] {
        network.add_variable(IntervalSet::new(Global, lower, upper).unwrap()).unwrap();
    }
    if is_named {
        network.require(Rule::AtMost { x: 2, y: 3, by: 0 }).unwrap();
    }
    network.require(Rule::Sum(Constraint { x: 0, y: 2, z: 1 })).unwrap();
    network.require(Rule::AtMost { x: 0, y: 1, by: 1 }).unwrap();
    network.require(Rule::AtMost { x: 1, y: 0, by: 1 }).unwrap();
    let mut made = 0;
    while network.settle(1).unwrap() != Settled::All {
        made += 1;
    }
    made
}

#[test]
fn a_rule_that_alone_names_a_variable_waits_for_the_others() {
    for numbers in [10, 100, 1_000] {
        // each turn of the circle takes two narrowings, and a third where the sum does not wait
        let (alone, named) = (narrowings_beside_a_circle(numbers, false), narrowings_beside_a_circle(numbers, true));
        assert!(alone <= numbers + 10, "{alone} for {numbers}");
        assert!(named >= alone + numbers / 3, "{named} and {alone} for {numbers}");
    }
}

#[test]
fn a_mark_keeps_whether_all_was_settled() {
    for is_all in [true, false] {
        let mut network = Network::new(Global);
        for _ in 0..3 {
            network.add_variable(IntervalSet::new(Global, 0i8, 9).unwrap()).unwrap();
        }
        network.require(Rule::AtMost { x: 0, y: 1, by: 0 }).unwrap();
        network.require(Rule::AtMost { x: 1, y: 2, by: 0 }).unwrap();
        if is_all {
            assert_eq!(network.settle(2), Ok(Settled::All));
        }
        for _ in 0..3 {
            let mark = network.mark().unwrap();
            network.restrict(0, &IntervalSet::new(Global, 5, 9).unwrap()).unwrap();
            network.require(Rule::Differs { x: 0, y: 2, by: 3 }).unwrap();
            assert_eq!(network.settle(100), Ok(Settled::All));
            assert_eq!(network.domains()[2], IntervalSet::new(Global, 5, 9).unwrap());
            assert!(network.undo_to(mark));
            assert_eq!(is_settled(&mut network), is_all);
        }
        // the flags are right again: a cut wakes the rules that name its variable
        network.restrict(0, &IntervalSet::new(Global, 7, 9).unwrap()).unwrap();
        assert_eq!(network.settle(100), Ok(Settled::All));
        assert_eq!(network.domains()[2], IntervalSet::new(Global, 7, 9).unwrap());
    }
}

#[test]
fn narrowing_unless_a_domain_is_empty_stops_at_the_first() {
    let whole = || IntervalSet::new(Global, 0i8, 9).unwrap();
    let (emptying, other) = (Rule::AtMost { x: 0, y: 1, by: 10 }, Rule::AtMost { x: 2, y: 3, by: 1 });
    let untouched = [[emptying, other], [other, emptying]].map(|rules| {
        let mut network = Network::new(Global);
        for _ in 0..4 {
            network.add_variable(whole()).unwrap();
        }
        for rule in rules {
            network.require(rule).unwrap();
        }
        assert_eq!(network.settle_unless_empty(0), Ok(Settled::Unfinished));
        assert!(!network.has_empty());
        // one of the orders ends in its last narrowing, the other has one left
        let ended = network.settle_unless_empty(100).unwrap();
        assert!(network.has_empty());
        let is_untouched = network.domains()[2] == whole();
        assert_eq!(ended == Settled::Unfinished, is_untouched);
        assert_eq!(network.settle_unless_empty(100), Ok(ended));
        assert_eq!(network.domains()[2] == whole(), is_untouched);
        assert_eq!(network.settle(100), Ok(Settled::All));
        assert!(network.domains()[2] != whole());
        is_untouched
    });
    assert_ne!(untouched[0], untouched[1]);
}

#[test]
fn unknown_variables_are_told_and_nothing_changes() {
    let mut network = Network::new(Global);
    for _ in 0..2 {
        network.add_variable(IntervalSet::new(Global, 0i8, 9).unwrap()).unwrap();
    }
    let before = Rule::AtMost { x: 0, y: 1, by: 3 };
    assert_eq!(network.require(before), Ok(()));
    assert_eq!(network.require(Rule::Sum(Constraint { x: 0, y: 7, z: 5 })), Err(StoreFault::Variable(7)));
    assert_eq!(network.require(Rule::Differs { x: 2, y: 1, by: 0 }), Err(StoreFault::Variable(2)));
    assert_eq!(network.restrict(2, &IntervalSet::new(Global, 0, 1).unwrap()), Err(StoreFault::Variable(2)));
    assert_eq!(network.restrict_to_interval(2, Interval::new(0, 1)), Err(StoreFault::Variable(2)));
    assert_eq!((network.rules(), network.domains().len()), (&[before][..], 2));
    assert!(!network.undo_to(0));
}

/// Two rules in a circle, of each kind that has such: x + 1 = y and y + 1 = x, or both with `<=`. The third variable is 1.
const CIRCLES: [[Rule; 2]; 3] = [
    [Rule::Sum(Constraint { x: 0, y: 2, z: 1 }), Rule::Sum(Constraint { x: 1, y: 2, z: 0 })],
    [Rule::Shifted { x: 0, y: 1, by: 1 }, Rule::Shifted { x: 1, y: 0, by: 1 }],
    [Rule::AtMost { x: 0, y: 1, by: 1 }, Rule::AtMost { x: 1, y: 0, by: 1 }],
];

/// A circle over so many numbers: the narrowings empty the domains, some numbers each.
fn circle_of(numbers: i64, rules: [Rule; 2]) -> Network<i64> {
    let mut network = Network::new(Global);
    for (lower, upper) in [(0, numbers - 1), (0, numbers - 1), (1, 1)] {
        network.add_variable(IntervalSet::new(Global, lower, upper).unwrap()).unwrap();
    }
    for rule in rules {
        network.require(rule).unwrap();
    }
    network
}

#[test]
fn a_budget_that_suffices_exactly_settles_all() {
    for (numbers, rules) in [1, 2, 3, 10, 500].into_iter().flat_map(|numbers| CIRCLES.map(|rules| (numbers, rules))) {
        let settled = |budget| circle_of(numbers, rules).settle(budget).unwrap();
        let within = |budget| circle_of(numbers, rules).settle_within(budget).unwrap();
        let least = (0..).find(|budget| settled(*budget) == Settled::All).unwrap();
        assert!(least > 1);
        // narrowings of single runs count for one each
        assert_eq!((0..).find(|budget| within(*budget) == Settled::All), Some(least));
        assert_eq!(
            (settled(least - 1), settled(least), settled(u64::MAX)),
            (Settled::Unfinished, Settled::All, Settled::All)
        );
        // two calls share it
        let mut network = circle_of(numbers, rules);
        assert_eq!(network.settle(least - 1), Ok(Settled::Unfinished));
        assert_eq!(network.settle_within(1), Ok(Settled::All));
        assert!(network.has_empty());
    }
}

/// The even numbers from 0, so many.
fn evens(count: i64) -> IntervalSet<i64> {
    let pairs: Vec<(i64, i64)> = (0..count).map(|n| (2 * n, 2 * n)).collect();
    pairs.as_slice().to_interval_set(Global).unwrap()
}

#[test]
fn a_narrowing_counts_for_what_it_may_look_at() {
    let sum = Rule::Sum(Constraint { x: 0, y: 1, z: 2 });
    let before = Rule::AtMost { x: 0, y: 1, by: 0 };
    // of a sum the pairs of runs of two domains; of a rule of two variables the runs of both
    let of_sum = [(1, 1), (9, 1), (10, 2), (100, 118)].map(|(runs, cost)| (sum, runs, cost));
    let of_two = [(1, 1), (127, 1), (128, 2), (1_000, 8)].map(|(runs, cost)| (before, runs, cost));
    for (rule, runs, cost) in of_sum.into_iter().chain(of_two) {
        let mut network = Network::new(Global);
        for _ in 0..3 {
            network.add_variable(evens(runs)).unwrap();
        }
        network.require(rule).unwrap();
        for _ in 0..3 {
            assert_eq!(network.settle_within(cost - 1), Ok(Settled::Unfinished));
        }
        assert_eq!(network.settle_within(cost), Ok(Settled::All));
    }
}

#[test]
fn a_settled_rule_stops_nothing_however_much_it_counts_for() {
    let mut network = Network::new(Global);
    for _ in 0..3 {
        network.add_variable(evens(60)).unwrap();
    }
    network.require(Rule::Sum(Constraint { x: 0, y: 1, z: 2 })).unwrap();
    assert_eq!(network.settle_within(42), Ok(Settled::Unfinished));
    assert_eq!(network.settle_within(43), Ok(Settled::All));
    for _ in 0..2 {
        network.add_variable(IntervalSet::new(Global, 0, 9).unwrap()).unwrap();
    }
    network.require(Rule::AtMost { x: 3, y: 4, by: 1 }).unwrap();
    assert_eq!(network.settle_within(5), Ok(Settled::All));
    assert_eq!(network.domains()[3], IntervalSet::new(Global, 0, 8).unwrap());
    assert_eq!(network.domains()[4], IntervalSet::new(Global, 1, 9).unwrap());
    // nothing is left, so that nothing is needed
    assert_eq!(network.settle_within(0), Ok(Settled::All));
}

#[test]
fn an_undo_wakes_no_rule_whose_domains_stay() {
    let mut network = Network::new(Global);
    for _ in 0..3 {
        network.add_variable(evens(60)).unwrap();
    }
    network.require(Rule::Sum(Constraint { x: 0, y: 1, z: 2 })).unwrap();
    assert_eq!(network.settle_within(43), Ok(Settled::All));
    for _ in 0..2 {
        network.add_variable(IntervalSet::new(Global, 0, 9).unwrap()).unwrap();
    }
    // not all is settled at the mark
    network.require(Rule::Shifted { x: 3, y: 4, by: 1 }).unwrap();
    let mark = network.mark().unwrap();
    network.restrict_to_interval(3, Interval::new(5, 9)).unwrap();
    assert_eq!(network.settle_within(5), Ok(Settled::All));
    assert_eq!(network.domains()[4], IntervalSet::new(Global, 6, 9).unwrap());
    assert!(network.undo_to(mark));
    assert_eq!(network.settle_within(0), Ok(Settled::Unfinished));
    // the rule that waits counts for one, and the sum for 43
    assert_eq!(network.settle_within(1), Ok(Settled::All));
    assert_eq!(network.domains()[4], IntervalSet::new(Global, 1, 9).unwrap());
}

#[test]
fn what_changes_nothing_leaves_all_settled() {
    let rules = [
        Rule::Sum(Constraint { x: 0, y: 1, z: 2 }),
        Rule::Shifted { x: 0, y: 3, by: 5 },
        Rule::AtMost { x: 1, y: 2, by: 0 },
        Rule::Differs { x: 2, y: 3, by: -1 },
    ];
    let mut network = Network::new(Global);
    for _ in 0..4 {
        network.add_variable(evens(60)).unwrap();
    }
    for rule in rules {
        network.require(rule).unwrap();
    }
    network.add_variable(evens(1)).unwrap();
    assert_eq!(network.settle(1_000_000), Ok(Settled::All));
    for rule in rules {
        network.require(rule).unwrap();
        assert_eq!((network.rules().len(), network.settle(0)), (4, Ok(Settled::All)), "{rule:?}");
    }
    for variable in 0..4 {
        network.restrict(variable, &evens(60)).unwrap();
        assert_eq!(network.settle(0), Ok(Settled::All), "{variable}");
        network.restrict_to_interval(variable, Interval::new(0, 118)).unwrap();
        assert_eq!(network.settle(0), Ok(Settled::All), "{variable}");
    }
    // a variable that no rule names wakes none
    network.restrict(4, &IntervalSet::empty(Global)).unwrap();
    assert!(network.has_empty());
    assert_eq!(network.settle(0), Ok(Settled::All));
}

/// Each two of so many variables differ.
fn pairs(count: usize) -> Vec<Rule> {
    (0..count).flat_map(|x| (x + 1..count).map(move |y| Rule::Differs { x, y, by: 0 })).collect()
}

#[test]
fn a_rule_that_is_there_is_found_among_many() {
    let (few, many) = (60, 4_000);
    let below = (0..many).map(|x| Rule::AtMost { x, y: many, by: -1 });
    let shifted = (0..many as i64).map(|by| Rule::AtMost { x: 0, y: 1, by: -by });
    for rules in [pairs(few), below.collect(), shifted.collect()] {
        let mut network = Network::new(Global);
        for _ in 0..=many {
            network.add_variable(IntervalSet::new(Global, 0, 9).unwrap()).unwrap();
        }
        for _ in 0..3 {
            for rule in &rules {
                network.require(*rule).unwrap();
            }
            assert_eq!(network.rules(), rules);
        }
        // what is taken back is no longer there
        let mark = network.mark().unwrap();
        network.require(Rule::Shifted { x: 0, y: 1, by: 0 }).unwrap();
        network.undo_to(mark);
        assert_eq!(network.rules(), rules);
        network.require(Rule::Shifted { x: 0, y: 1, by: 0 }).unwrap();
        assert_eq!(network.rules().len(), rules.len() + 1);
    }
}

const RUNS: i64 = 1_000;
const CUTS: i64 = 200;

/// A line that cuts the greatest member off and narrows, carried out under a mark.
fn cut_and_settle(network: &mut Network<i64>, line: i64) {
    let mark = network.mark().unwrap();
    let kept = IntervalSet::new(Global, 0, 2 * (RUNS - line) - 3).unwrap();
    network.restrict(0, &kept).unwrap();
    assert_eq!(network.settle_within(1_000_000), Ok(Settled::All));
    network.drop_marks(mark);
}

#[test]
fn lines_leave_nothing_behind() {
    for rule in [Rule::Sum(Constraint { x: 0, y: 2, z: 1 }), Rule::Shifted { x: 0, y: 1, by: 0 }] {
        let mut network = Network::new(Global);
        for domain in [evens(RUNS), evens(RUNS), evens(1)] {
            network.add_variable(domain).unwrap();
        }
        network.require(rule).unwrap();
        cut_and_settle(&mut network, 0);
        let ((), told) = cost(|| (1..CUTS).for_each(|line| cut_and_settle(&mut network, line)));
        // both domains lost a member in each line
        assert!(network.domains()[..2].iter().all(|domain| domain.size() == (RUNS - CUTS) as u64));
        // a domain that was replaced takes 8 kB and more
        assert!(told.held < 8 * RUNS as isize, "{told:?}");
    }
}
