//! Searches for all solutions: puzzles whose numbers of solutions are known, and small random instances beside all points.
use intervallum::proved::Global;
use intervallum::proved::interval_set::{IntervalSet, ToIntervalSet};
use intervallum::proved::ivl_search::search::{
    Best, End, Limits, SearchFault, all_distinct, count, greatest, least, solutions, try_solutions,
};
use intervallum::proved::ivl_store::store::Constraint;
use intervallum::proved::ops::Contains;
use std::collections::BTreeSet;

mod memory;
#[allow(dead_code)]
#[path = "../examples/searches.rs"]
mod searches;
use memory::{Watched, cost};

#[global_allocator]
static ALLOCATOR: Watched = Watched;

type Search = fn(Global, &[IntervalSet<i64>], &[Constraint], usize, Limits) -> Result<Best<i64>, SearchFault>;

struct Instance {
    domains: Vec<IntervalSet<i64>>,
    constraints: Vec<Constraint>,
}

/// Reads lines `domain l u l u ..`, one for each variable, and lines `sum x y z`.
fn instance(text: &str) -> Instance {
    let (mut domains, mut constraints) = (Vec::new(), Vec::new());
    for line in text.lines() {
        let mut words = line.split_whitespace();
        let kind = words.next().unwrap();
        let numbers: Vec<i64> = words.map(|word| word.parse().unwrap()).collect();
        if kind == "domain" {
            let runs: Vec<(i64, i64)> = numbers.chunks(2).map(|run| (run[0], run[1])).collect();
            domains.push(runs.as_slice().to_interval_set(Global).unwrap());
        } else {
            let [x, y, z] = [0, 1, 2].map(|i| usize::try_from(numbers[i]).unwrap());
            constraints.push(Constraint { x, y, z });
        }
    }
    Instance { domains, constraints }
}

/// The solutions that a search finds, and why it ended.
fn found(instance: &Instance, limits: Limits) -> (Vec<Vec<i64>>, End) {
    assert!(all_distinct(&instance.constraints));
    let found = solutions(Global, &instance.domains, &instance.constraints, limits).unwrap();
    let counted = count(Global, &instance.domains, &instance.constraints, limits).unwrap();
    assert_eq!(counted, (found.points.len(), found.end));
    (found.points.iter().map(|point| point.to_vec()).collect(), found.end)
}

/// Whether the numbers are members of the domains, and each sum holds.
fn solves(instance: &Instance, point: &[i64]) -> bool {
    point.len() == instance.domains.len()
        && instance.domains.iter().zip(point).all(|(domain, number)| domain.contains(number))
        && instance.constraints.iter().all(|c| point[c.x] + point[c.y] == point[c.z])
}

/// All solutions are found, so many, each once, within so many nodes; not with one solution less.
fn has_solutions(text: &str, number: usize, nodes: u64) {
    let instance = instance(text);
    let (points, end) = found(&instance, Limits { solutions: 1_000, nodes });
    assert_eq!((points.len(), end), (number, End::All));
    assert!(points.iter().all(|point| solves(&instance, point)));
    assert_eq!(points.iter().collect::<BTreeSet<_>>().len(), number);
    let (points, end) = found(&instance, Limits { solutions: number - 1, nodes });
    assert_eq!((points.len(), end), (number - 1, End::Solutions));
    assert_eq!(found(&instance, Limits { solutions: 1_000, nodes: 0 }), (Vec::new(), End::Nodes));
}

/// The least and the greatest number of a variable over all solutions; none if there is no solution.
fn bounds(instance: &Instance, variable: usize, limits: Limits) -> [Option<i64>; 2] {
    [least, greatest].map(|best| {
        let best = best(Global, &instance.domains, &instance.constraints, variable, limits).unwrap();
        assert_eq!(best.end, End::All);
        let point = best.point?;
        assert!(solves(instance, &point));
        Some(point[variable])
    })
}

#[test]
fn small_instances() {
    // no variable: the point without numbers
    has_solutions("", 1, 10);
    // no constraint: each pair
    has_solutions("domain 1 2 7 7\ndomain 0 1", 6, 100);
    has_solutions("domain 0 9\ndomain 0 9\ndomain 0 9\nsum 0 1 2", 55, 1_000);
    // y = x + 1, from domains that are halved
    has_solutions("domain 0 199\ndomain 1 1\ndomain 0 99\nsum 0 1 2", 99, 1_000);
    // an empty domain, and x + one = y and y + one = x
    for text in ["domain 1 2\ndomain", "domain 0 9\ndomain 0 9\ndomain 1 1\nsum 0 2 1\nsum 1 2 0"] {
        assert_eq!(found(&instance(text), Limits { solutions: 9, nodes: 100 }), (Vec::new(), End::All));
    }
}

#[test]
fn best_of_small_instances() {
    let limits = Limits { solutions: 100, nodes: 10_000 };
    // no constraint, z = x + y, y = x + 1
    assert_eq!(bounds(&instance("domain 1 2 7 7\ndomain 0 1"), 0, limits), [Some(1), Some(7)]);
    assert_eq!(bounds(&instance("domain 2 9\ndomain 3 9\ndomain 0 13\nsum 0 1 2"), 2, limits), [Some(5), Some(13)]);
    assert_eq!(bounds(&instance("domain 0 199\ndomain 1 1\ndomain 50 99\nsum 0 1 2"), 0, limits), [Some(49), Some(98)]);
    // the ends of the range
    let whole = format!("domain {} {}", -i64::MAX, i64::MAX);
    assert_eq!(bounds(&instance(&whole), 0, limits), [Some(-i64::MAX), Some(i64::MAX)]);
    // an empty domain, and x + one = y and y + one = x
    for text in ["domain 1 2\ndomain", "domain 0 9\ndomain 0 9\ndomain 1 1\nsum 0 2 1\nsum 1 2 0"] {
        assert_eq!(bounds(&instance(text), 0, limits), [None, None]);
    }
}

#[test]
fn best_within_limits() {
    // z = 9 - y, and y is cut first: each half of the numbers of z has a solution, and a better one
    let Instance { domains, constraints } = instance("domain 0 9\ndomain 9 9\ndomain 0 9\nsum 2 0 1");
    for (search, optimum) in [(least as Search, 0), (greatest, 9)] {
        let best = |solutions, nodes| {
            let limits = Limits { solutions, nodes };
            let best = search(Global, &domains, &constraints, 2, limits).unwrap();
            (best.point.map(|point| point[2]), best.end)
        };
        assert_eq!(best(0, 1_000), (None, End::Solutions));
        assert_eq!(best(100, 0), (None, End::Nodes));
        assert_eq!(best(100, 1_000), (Some(optimum), End::All));
        // each solution that is found on the way is better than the one before it
        let distances: Vec<i64> = (1..100)
            .map(|solutions| best(solutions, 1_000))
            .take_while(|best| best.1 == End::Solutions)
            .map(|best| (best.0.unwrap() - optimum).abs())
            .collect();
        assert!(distances.len() > 1 && distances.is_sorted_by(|one, next| one > next));
        // the nodes of all searches are counted together
        let last = (1..1_000).find(|nodes| best(100, *nodes).1 == End::All).unwrap();
        assert_eq!(last, 9);
        // and the best solution that was found is kept where they are used up
        let found: Vec<_> = (0..last).map(|nodes| best(100, nodes)).collect();
        assert!(found.iter().all(|best| best.1 == End::Nodes));
        let distances_then: Vec<i64> =
            found.iter().map(|best| best.0.map_or(10, |number| (number - optimum).abs())).collect();
        assert!(distances_then.is_sorted_by(|one, next| one >= next));
        assert!(distances.iter().all(|distance| distances_then.contains(distance)));
    }
}

/// Variables without a constraint, whose domains are the whole range.
#[test]
fn the_greatest_number_takes_as_many_nodes_as_the_least() {
    let whole = format!("domain {} {}\n", -i64::MAX, i64::MAX);
    let Instance { domains, constraints } = instance(&whole.repeat(20));
    let nodes = |search: Search| {
        let ends = |nodes| search(Global, &domains, &constraints, 3, Limits { solutions: 2, nodes }).unwrap().end;
        (1..2_000).find(|nodes| ends(*nodes) == End::All)
    };
    assert!(nodes(least).is_some());
    assert_eq!(nodes(least), nodes(greatest));
}

#[test]
fn constraints_that_are_refused() {
    let limits = Limits { solutions: 9, nodes: 9 };
    let Instance { domains, .. } = instance("domain 1 2\ndomain 1 2\ndomain 1 2");
    let twice = [Constraint { x: 0, y: 0, z: 7 }];
    assert!(!all_distinct(&twice));
    assert!(try_solutions(Global, &domains, &twice, limits).unwrap().is_none());
    let unknown = [Constraint { x: 0, y: 1, z: 2 }, Constraint { x: 0, y: 8, z: 7 }];
    assert_eq!(solutions(Global, &domains, &unknown, limits).err(), Some(SearchFault::Variable(8)));
    assert_eq!(try_solutions(Global, &domains, &unknown, limits).err(), Some(SearchFault::Variable(8)));
    assert_eq!(count(Global, &domains, &unknown, limits), Err(SearchFault::Variable(8)));
    // the constraints first, and then the variable
    let known = [Constraint { x: 0, y: 1, z: 2 }];
    for best in [least, greatest] {
        let fault = |constraints, variable| best(Global, &domains, constraints, variable, limits).err();
        assert_eq!(fault(&unknown, 9), Some(SearchFault::Variable(8)));
        assert_eq!(fault(&known, 3), Some(SearchFault::Variable(3)));
        assert_eq!(fault(&known, 2), None);
    }
}

#[test]
fn puzzles_that_are_made_are_those_of_the_files() {
    for (name, lines) in [
        ("queens6", include_str!("puzzles/queens6.txt")),
        ("queens8", include_str!("puzzles/queens8.txt")),
        ("golomb5", include_str!("puzzles/golomb5_11.txt")),
        ("langford4", include_str!("puzzles/langford4.txt")),
    ] {
        assert_eq!(searches::puzzle(name).unwrap().to_string(), lines);
    }
    let rules = "domain -1 1 5 5\ndomain\ndomain 0 2\nshifted 0 -1 2\natmost 2 3 0\ndiffers 1 0 2\nsum 0 1 2\n";
    assert_eq!(searches::read(rules).unwrap().to_string(), rules);
    let outside = format!("domain {} 0", i64::MIN);
    for fault in ["domain 1", "domain 1 x", "sum 0 1", "sum 0 0 1", "less 0 1 2", "sum -1 0 1", &outside] {
        assert!(searches::read(fault).is_none(), "{fault}");
    }
}

#[test]
fn queens_on_six_by_six() {
    has_solutions(include_str!("puzzles/queens6.txt"), 4, 41);
}

#[test]
fn queens_on_eight_by_eight() {
    has_solutions(include_str!("puzzles/queens8.txt"), 92, 489);
}

#[test]
fn magic_squares_of_three() {
    has_solutions(include_str!("puzzles/magic3.txt"), 8, 53);
}

#[test]
fn send_more_money() {
    has_solutions(include_str!("puzzles/sendmore.txt"), 1, 113);
}

#[test]
fn golomb_rulers_of_five_marks() {
    has_solutions(include_str!("puzzles/golomb5_11.txt"), 4, 51);
}

/// A search takes memory for its domains and for what its trail keeps at once, and not for each set that a narrowing leaves.
#[test]
fn searches_use_memory_again() {
    let limits = Limits { solutions: 1_000, nodes: 1_000_000 };
    for (text, most) in [
        (include_str!("puzzles/queens6.txt"), 130),
        (include_str!("puzzles/queens8.txt"), 430),
        (include_str!("puzzles/magic3.txt"), 440),
        (include_str!("puzzles/sendmore.txt"), 580),
        (include_str!("puzzles/golomb5_11.txt"), 350),
        (include_str!("puzzles/langford4.txt"), 150),
        (include_str!("puzzles/coins50.txt"), 160),
    ] {
        let Instance { domains, constraints } = instance(text);
        let (found, told) = cost(|| count(Global, &domains, &constraints, limits));
        assert_eq!(found.unwrap().1, End::All);
        assert!(told.allocations <= most && told.held == 0, "{} variables: {told:?}", domains.len());
    }
}

#[test]
fn shortest_golomb_ruler_of_five_marks() {
    // marks and distances up to 25; the last mark is no longer fixed
    let longer = |line: &str| match line.strip_prefix("domain ") {
        Some("11 11") => "domain 1 25\n".to_string(),
        Some(runs) => format!("domain {}\n", runs.replace("11", "25")),
        None => format!("{line}\n"),
    };
    let text: String = include_str!("puzzles/golomb5_11.txt").lines().map(longer).collect();
    let instance = instance(&text);
    let limits = Limits { solutions: 100, nodes: 10_000 };
    let best = least(Global, &instance.domains, &instance.constraints, 4, limits).unwrap();
    assert_eq!((best.point.map(|point| point[4]), best.end), (Some(11), End::All));
}

#[test]
fn corners_of_magic_squares_of_three() {
    let instance = instance(include_str!("puzzles/magic3.txt"));
    let limits = Limits { solutions: 100, nodes: 1_000 };
    // corners are even, edges are odd, and the middle is 5
    for (cell, least, greatest) in [(0, 2, 8), (1, 1, 9), (4, 5, 5), (8, 2, 8)] {
        assert_eq!(bounds(&instance, cell, limits), [Some(least), Some(greatest)]);
    }
}

#[test]
fn langford_pairs_of_four() {
    has_solutions(include_str!("puzzles/langford4.txt"), 2, 11);
}

#[test]
fn coins_that_make_fifty() {
    has_solutions(include_str!("puzzles/coins50.txt"), 146, 301);
}

/// Numbers below a bound, by a linear congruential generator.
struct Random(u64);

impl Random {
    fn below(&mut self, bound: usize) -> usize {
        self.0 = self.0.wrapping_mul(6_364_136_223_846_793_005).wrapping_add(1_442_695_040_888_963_407);
        usize::try_from(self.0 >> 33).unwrap() % bound
    }

    fn instance(&mut self) -> Instance {
        let count = 3 + self.below(4);
        let domains = (0..count).map(|_| {
            let least = i64::try_from(self.below(9)).unwrap() - 4;
            let members: Vec<i64> = (least..least + 8).filter(|_| self.below(3) > 0).collect();
            IntervalSet::of_members(Global, &members).unwrap()
        });
        let domains = domains.collect();
        let constraints = (0..1 + self.below(count)).map(|_| {
            let x = self.below(count);
            let y = (x + 1 + self.below(count - 1)) % count;
            let z = (0..count).filter(|z| *z != x && *z != y).nth(self.below(count - 2)).unwrap();
            Constraint { x, y, z }
        });
        Instance { domains, constraints: constraints.collect() }
    }
}

/// All points of members that solve the sums, in ascending order.
fn by_trying_all(instance: &Instance) -> Vec<Vec<i64>> {
    let mut points = vec![Vec::new()];
    for domain in &instance.domains {
        let longer = |point: &Vec<i64>| {
            let point = point.clone();
            domain.members().map(move |number| [point.as_slice(), &[number]].concat())
        };
        points = points.iter().flat_map(longer).collect();
    }
    points.retain(|point| solves(instance, point));
    points
}

#[test]
fn random_instances_beside_all_points() {
    let mut random = Random(1);
    let mut count = 0;
    for _ in 0..200 {
        let instance = random.instance();
        let (mut points, end) = found(&instance, Limits { solutions: usize::MAX, nodes: u64::MAX });
        assert_eq!(end, End::All);
        points.sort();
        assert_eq!(points, by_trying_all(&instance));
        let variable = random.below(instance.domains.len());
        let numbers = || points.iter().map(|point| point[variable]);
        let limits = Limits { solutions: 9, nodes: u64::MAX };
        assert_eq!(bounds(&instance, variable, limits), [numbers().min(), numbers().max()]);
        count += points.len();
    }
    assert!(count > 1_000);
}
