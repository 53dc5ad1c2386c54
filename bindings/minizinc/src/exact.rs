//! That what is posted has exactly the points that are meant, each once: the variables that are added are functions of the others.

use crate::linear::{Relation, set_of};
use crate::network::{Network, Set};
use intervallum::proved::Global;
use intervallum::proved::IntervalSet as Domain;
use intervallum::proved::ivl_search::search::rules::solutions;
use intervallum::proved::ivl_search::search::{End, Limits};

type Post = dyn Fn(&mut Network, &[usize]) -> Result<(), String>;

/// The points of the first variables, as often as the search finds them.
fn found(network: &mut Network, count: usize) -> Vec<Vec<i64>> {
    if network.is_impossible {
        network.domains.push(Set::empty());
    }
    let domains: Vec<Domain<i64>> = network.domains.iter().map(|domain| domain.clone().into()).collect();
    let limits = Limits { solutions: usize::MAX, nodes: u64::MAX };
    let found = solutions(Global, &domains, &network.rules, limits).unwrap();
    assert_eq!(found.end, End::All);
    let mut points: Vec<Vec<i64>> = found.points.iter().map(|point| point[..count].to_vec()).collect();
    points.sort();
    points
}

/// All points of the domains, in order.
fn all(domains: &[Set]) -> Vec<Vec<i64>> {
    domains.iter().fold(vec![Vec::new()], |points, domain| {
        let longer = points.iter().flat_map(|point| domain.iter().map(move |number| [&point[..], &[number]].concat()));
        longer.collect()
    })
}

fn check(domains: &[Set], post: &Post, holds: &dyn Fn(&[i64]) -> bool) {
    let mut network = Network::default();
    let variables: Vec<usize> = domains.iter().map(|domain| network.variable(domain.clone()).unwrap()).collect();
    post(&mut network, &variables).unwrap();
    let wanted: Vec<Vec<i64>> = all(domains).into_iter().filter(|point| holds(point)).collect();
    assert_eq!(found(&mut network, domains.len()), wanted, "{domains:?}");
}

fn with_holes() -> Set {
    Set::from([(-9, -7), (-3, -3), (0, 2), (6, 8)])
}

fn bool() -> Set {
    Set::new(0, 1)
}

#[test]
fn multiples() {
    for factor in [-100, -7, -1, 1, 2, 3, 64, 1000] {
        for domain in [bool(), with_holes(), Set::new(-50, 60)] {
            let ends = [domain.lower() * factor, domain.upper() * factor];
            let images = Set::from_iter([ends[0], ends[1], 0, factor, factor + 1, 6 * factor]);
            let post = move |network: &mut Network, v: &[usize]| {
                let multiple = network.multiple(factor, v[0])?;
                network.shifted(multiple, v[1], 0)
            };
            check(&[domain, images], &post, &|p| p[0] * factor == p[1]);
        }
    }
}

#[test]
fn tables() {
    let domains = [with_holes(), Set::new(-20, 100)];
    for f in [|x: i64| x * x, |_| 7, |x| x.rem_euclid(3), |x| -x, |x| x + 5, |x| 40 * x % 11] as [fn(i64) -> i64; 6] {
        let table: Vec<(i64, i64)> = (-20..20).filter(|x| *x != 1).map(|x| (x, f(x))).collect();
        check(&domains, &move |network, v| network.image(v[0], &table, v[1]), &|p| p[0] != 1 && p[1] == f(p[0]));
    }
    let same: Vec<(i64, i64)> = (-9..9i64).map(|x| (x, x.abs())).collect();
    check(&[with_holes()], &move |network, v| network.image(v[0], &same, v[0]), &|p| p[0] >= 0);
}

#[test]
fn memberships() {
    for set in [Set::new(0, 1), Set::from([(-9, -8), (2, 7)]), Set::new(50, 60), Set::new(-9, 8), Set::singleton(1)] {
        let (inside, implied) = (set.clone(), set.clone());
        check(&[with_holes(), bool()], &move |network, v| network.member(v[0], &inside, v[1]), &|p| {
            set.contains(p[0]) == (p[1] == 1)
        });
        check(&[with_holes(), bool()], &move |network, v| network.implied_member(v[1], v[0], &implied), &|p| {
            p[1] == 0 || set.contains(p[0])
        });
        // twice the same, which is known then
        let (first, again) = (set.clone(), set.clone());
        let post = move |network: &mut Network, v: &[usize]| {
            network.member(v[0], &first, v[1])?;
            network.member(v[0], &again, v[2])
        };
        check(&[with_holes(), bool(), bool()], &post, &|p| set.contains(p[0]) == (p[1] == 1) && p[1] == p[2]);
    }
}

#[test]
fn sums() {
    let domains = [Set::new(-2, 3), with_holes(), bool(), Set::singleton(4)];
    let factors =
        [[1, -1, 0, 0], [2, 4, 6, 1], [-3, 1, 1, -1], [5, -2, 3, 1], [0, 0, 0, 2], [-1, -1, -1, 0], [1, 1, 0, -1]];
    for factors in factors {
        let sum = move |p: &[i64]| p.iter().zip(factors).map(|(x, factor)| x * factor).sum::<i64>();
        let terms = move |v: &[usize]| factors.iter().copied().zip(v.iter().copied()).collect::<Vec<_>>();
        for number in [-7, -1, 0, 2, 3, 8, i64::MIN, i64::MAX] {
            for relation in [Relation::AtMost, Relation::Equals, Relation::Differs] {
                let holds = move |p: &[i64]| set_of(relation, number).contains(sum(p));
                check(&domains, &move |network, v| network.compare(&terms(v), relation, number), &holds);
                check(
                    &domains,
                    &move |network, v| network.within_if(&terms(v), &set_of(relation, number), v[2]),
                    &move |p| holds(p) == (p[2] == 1),
                );
                check(
                    &domains,
                    &move |network, v| network.within_where(v[2], &terms(v), &set_of(relation, number)),
                    &move |p| holds(p) || p[2] == 0,
                );
            }
        }
    }
}

#[test]
fn operations_beyond_tables() {
    let (x, y) = (Set::from([(-12, -1), (3, 12)]), Set::from([(-3, -2), (0, 4)]));
    let few = Set::from_iter([-7, -1, 0, 1, 3, 12, 36]);
    check(&[x.clone(), y.clone(), few.clone()], &|network, v| network.product_by_bits(v[0], v[1], v[2]), &|p| {
        p[0] * p[1] == p[2]
    });
    check(&[x.clone(), few], &|network, v| network.product_by_bits(v[0], v[0], v[1]), &|p| p[0] * p[0] == p[1]);
    for y in [y, Set::singleton(-3)] {
        let domains = [x.clone(), y, Set::new(-5, 5), Set::new(-4, 4)];
        check(&domains, &|network, v| network.divided_by(v[0], v[1], v[2], v[3]), &|p| {
            p[1] != 0 && p[0] / p[1] == p[2] && p[0] % p[1] == p[3]
        });
    }
    let wide = Set::from([(-3000, -1), (3, 3000)]);
    let few = Set::from_iter([0, 1, 3, 60, 2999]);
    check(&[wide, few], &|network, v| network.absolute(v[0], v[1]), &|p| p[0].abs() == p[1]);
}

#[test]
fn extremes_and_elements() {
    let domains = [Set::new(-2, 1), with_holes(), Set::new(0, 2), Set::new(-1, 3)];
    for is_greatest in [true, false] {
        let holds = move |p: &[i64]| {
            if is_greatest { p[..3].iter().max() == Some(&p[3]) } else { p[..3].iter().min() == Some(&p[3]) }
        };
        check(&domains, &move |network, v| network.extreme(&v[..3], v[3], is_greatest), &holds);
    }
    check(&domains, &|network, v| network.element(v[3], &v[..3], v[1]), &|p| {
        (1..=3).contains(&p[3]) && p[p[3] as usize - 1] == p[1]
    });
}
